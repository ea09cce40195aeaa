//! Which of three registered names are like LANE? Then LANES is withdrawn, and added under another id. examples/c/lane.c and
//! examples/python/lane.py print the same.
//!
//!   bash tools/library
//!   rustc --edition 2021 -L target/library -o target/lane-rust examples/rust/lane.rs
//!   LD_LIBRARY_PATH=target/library target/lane-rust
//!
//! What a caller owes for each `unsafe` is in include/rushgirdle.h: every pointer is good for its length, and what is written overlaps nothing.

#[repr(C)]
struct Built {
    number: u8,
    line: u32,
}

#[repr(C)]
struct Found {
    number: u8,
    rows: u32,
    touches: u32,
    p: u16,
    q: u16,
}

#[repr(C)]
#[derive(Clone, Copy, Default)]
struct Row {
    id: u32,
    shared: u32,
    size: u32,
    least: u32,
}

#[rustfmt::skip]
#[link(name = "rushgirdle")]
extern "C" {
    fn rushgirdle_build(register: *const u8, register_length: usize, words: *mut u32, words_length: usize) -> Built;
    fn rushgirdle_add(words: *mut u32, words_length: usize, id: u16, name: *const u8, name_length: usize) -> u8;
    fn rushgirdle_withdraw(words: *mut u32, words_length: usize, id: u16) -> u8;
    fn rushgirdle_search_rows(query: *const u8, query_length: usize, measure: u8, p: u16, q: u16, allowance: u32,
        words: *const u32, words_length: usize, rows: *mut Row, rows_length: usize) -> Found;
}

const DICE: u8 = 1;
const MOST_NAMES: usize = 256;
const MOST_WORDS: usize = 258_819;

fn look_up(words: &[u32], query: &str, allowance: u32) {
    let mut rows = [Row::default(); MOST_NAMES];
    let found = unsafe {
        rushgirdle_search_rows(
            query.as_ptr(), query.len(), DICE, 8, 13, allowance, words.as_ptr(), words.len(), rows.as_mut_ptr(), rows.len(),
        )
    };
    println!("{query}, Dice 8/13, allowance {allowance}: number {}", found.number);
    for row in &rows[..found.rows as usize] {
        println!("id {} shared {} size {} least {}", row.id, row.shared, row.size, row.least);
    }
    println!("rows {} touches {} threshold {}/{}", found.rows, found.touches, found.p, found.q);
}

fn withdraw(words: &mut [u32], id: u16) {
    let number = unsafe { rushgirdle_withdraw(words.as_mut_ptr(), words.len(), id) };
    println!("withdraw {id}: number {number}");
}

fn add(words: &mut [u32], id: u16, name: &str) {
    let number = unsafe { rushgirdle_add(words.as_mut_ptr(), words.len(), id, name.as_ptr(), name.len()) };
    println!("add {name} under {id}: number {number}");
}

fn main() {
    // 10: LANE, 11: LANES, 12: PLANE
    let register = "4E000A044C414E45\n4E000B054C414E4553\n4E000C05504C414E45\n";
    let mut words = vec![0; MOST_WORDS];
    let built = unsafe { rushgirdle_build(register.as_ptr(), register.len(), words.as_mut_ptr(), words.len()) };
    if built.number != 0 {
        eprintln!("line {} is refused with {}", built.line, built.number);
        std::process::exit(1);
    }
    look_up(&words, "LANE", 15);
    look_up(&words, "LANE", 14);
    withdraw(&mut words, 11);
    add(&mut words, 13, "LANES");
    look_up(&words, "LANE", 15);
    withdraw(&mut words, 11);
}
