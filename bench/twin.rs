//! An unverified twin of the proved lookup: the same method, written for speed in plain safe Rust, with no contract and no
//! proof. bench/measure.c holds the two side by side. Build it as a static library; its names are those of
//! include/rushgirdle.h with `twin_` in front.

#![allow(clippy::not_unsafe_ptr_arg_deref)]

use std::slice::{from_raw_parts, from_raw_parts_mut};

const NAMES: usize = 256;
const FEATURES: usize = 202;
const POSTINGS: usize = NAMES * FEATURES;
const NOTHING: u32 = u32::MAX;
const GUESSES: usize = 4096;

#[repr(C)]
#[derive(Clone, Copy)]
pub struct BuildAnswer {
    number: u8,
    line: u32,
}

#[repr(C)]
#[derive(Clone, Copy)]
pub struct SearchAnswer {
    number: u8,
    rows: u32,
    touches: u32,
    p: u16,
    q: u16,
}

const fn refused(number: u8, touches: u32) -> SearchAnswer {
    SearchAnswer { number, rows: 0, touches, p: 0, q: 0 }
}

// ---- names

fn judge(name: &[u8]) -> u8 {
    match name.len() {
        0 => 1,
        201.. => 2,
        _ if name.contains(&0) => 3,
        _ if name.iter().any(|byte| *byte < 32 || *byte == 127) => 12,
        _ => 0,
    }
}

/// The features of a judged name, in order of appearance, and how many.
fn features(name: &[u8]) -> ([u32; FEATURES], usize) {
    let mut set = [0u32; FEATURES];
    let mut grams = [0u32; FEATURES];
    let mut gram = 0u32;
    let size = name.len() + 2;
    for at in 0..size {
        gram = (gram << 8 | u32::from(name.get(at).copied().unwrap_or(0))) & 0x00FF_FFFF;
        let before = grams[..at].iter().filter(|other| **other == gram).count() as u32;
        grams[at] = gram;
        set[at] = gram << 8 | (before + 1);
    }
    (set, size)
}

// ---- likeness

fn searched(measure: u8, p: u64, q: u64, x: u64, y: u64) -> bool {
    match measure {
        1 => p * x <= (2 * q - p) * y && p * y <= (2 * q - p) * x,
        2 => p * x <= q * y && p * y <= q * x,
        3 => p * p * x <= q * q * y && p * p * y <= q * q * x,
        _ => true,
    }
}

fn least_count(measure: u8, p: u64, q: u64, x: u64, y: u64) -> u64 {
    match measure {
        1 => (p * (x + y)).div_ceil(2 * q),
        2 => (p * (x + y)).div_ceil(p + q),
        3 => {
            let least = (p * p * x * y).div_ceil(q * q);
            let root = least.isqrt();
            root + u64::from(root * root < least)
        }
        _ => (p * x.min(y)).div_ceil(q),
    }
}

fn divisor(p: u16, q: u16) -> u16 {
    if q == 0 {
        p
    } else {
        divisor(q, p % q)
    }
}

// ---- the index

struct Index<'a> {
    words: &'a [u32],
    names: &'a [u32],
    rows: &'a [[u32; 4]],
    /// Where the postings start among the words.
    start: usize,
}

fn cut(words: &[u32]) -> Option<Index<'_>> {
    let &[n, d, p, ..] = words else { return None };
    let (n, d, p) = (n as usize, d as usize, p as usize);
    if n > NAMES || p > POSTINGS || d > words.len() || 3 + n + 4 * d + p > words.len() {
        return None;
    }
    let start = 3 + n + 4 * d;
    let rows = words[3 + n..start].as_chunks().0;
    Some(Index { words: &words[..start + p], names: &words[3..3 + n], rows, start })
}

fn key(size: u32, feature: u32) -> u64 {
    u64::from(size) << 32 | u64::from(feature)
}

/// Where the two guesses of an id stand: by its last twelve bits, and behind those by the first twelve of its sixteen.
fn guess_places(id: u32) -> [usize; 2] {
    [id as usize % GUESSES, GUESSES + id as usize / 16 % GUESSES]
}

fn good(words: &[u32]) -> bool {
    let Some(index) = cut(words) else { return false };
    let fits = |name: &u32| *name < 1 << 24 && (3..=FEATURES as u32).contains(&(*name & 255));
    if !index.names.iter().all(fits) || !index.names.windows(2).all(|pair| pair[0] >> 8 < pair[1] >> 8) {
        return false;
    }
    let mut place = 0u64;
    let mut before = None;
    for row in index.rows {
        let key = key(row[0], row[1]);
        if before.is_some_and(|before| before >= key) || u64::from(row[2]) != place || row[3] == 0 {
            return false;
        }
        before = Some(key);
        place += u64::from(row[3]);
    }
    let postings = &index.words[index.start..];
    if place != postings.len() as u64 {
        return false;
    }
    let mut tally = [0u32; NAMES];
    let mut guesses = [0u8; 2 * GUESSES];
    for (at, name) in index.names.iter().enumerate() {
        for place in guess_places(name >> 8) {
            guesses[place] = at as u8;
        }
    }
    for row in index.rows {
        if row[0] > 255 {
            return false;
        }
        let list = &postings[row[2] as usize..(row[2] + row[3]) as usize];
        let mut least = 0;
        for id in list {
            if *id < least || *id > 65_535 {
                return false;
            }
            least = id + 1;
            let word = id << 8 | row[0];
            let [last, first] = guess_places(*id);
            let mut at = guesses[last] as usize;
            if index.names.get(at) != Some(&word) {
                at = guesses[first] as usize;
            }
            if index.names.get(at) != Some(&word) {
                at = index.names.partition_point(|name| *name < word);
                if index.names.get(at) != Some(&word) {
                    return false;
                }
            }
            tally[at] += 1;
        }
    }
    index.names.iter().zip(tally).all(|(name, count)| name & 255 == count)
}

// ---- the search

fn question(query: &[u8], measure: u8, p: u16, q: u16) -> u8 {
    match judge(query) {
        0 if !(1..=4).contains(&measure) => 4,
        0 if p < 1 || p > q || q > 1000 => 5,
        number => number,
    }
}

/// How many rows have a size below this one, where so many are known to have: sought in steps that double.
fn rows_under(index: &Index<'_>, size: u32, known: usize) -> usize {
    let rest = &index.rows[known..];
    let mut n = 0;
    while n < rest.len() && rest[n][0] < size {
        n += n + 16;
    }
    known + rest[..n.min(rest.len())].partition_point(|row| row[0] < size)
}

/// The counts of one size's answers put at their names' places, and the touches; nothing past the budget. `under` is how many rows are
/// known to have a smaller size, and then how many have this one or a smaller.
fn one_size(
    index: &Index<'_>,
    features: &[u32],
    size: u32,
    least: usize,
    budget: usize,
    under: &mut usize,
    answers: &mut [u32; NAMES],
) -> Option<usize> {
    let x = features.len();
    let mut starts = [0u32; FEATURES];
    let mut keys = [0u32; FEATURES];
    let from = rows_under(index, size, *under);
    *under = rows_under(index, size + 1, from);
    let rows = &index.rows[from..*under];
    let Some(last) = rows.len().checked_sub(1) else { return Some(0) };
    let mut empty = 0;
    for (at, feature) in features.iter().enumerate() {
        let row = rows[rows.partition_point(|row| row[1] < *feature).min(last)];
        let found = u32::from(row[1] == *feature);
        starts[at] = row[2] * found;
        keys[at] = row[3] * found << 8 | at as u32;
        // where fewer lists than the least count have ids, the signature lists are empty
        empty += 1 - found as usize;
        if empty > x - least {
            return Some(0);
        }
    }
    keys[..x].sort_unstable();
    let list = |key: u32| {
        let start = index.start + starts[(key & 255) as usize] as usize;
        &index.words[start..start + (key >> 8) as usize]
    };

    let mut counts = [0u32; NAMES];
    let mut met = [0u16; NAMES];
    let (mut candidates, mut touches) = (0, 0);
    let signatures = x - least + 1;
    for key in &keys[..signatures] {
        let list = list(*key);
        touches += list.len();
        if touches > budget {
            return None;
        }
        let mut next = 0;
        for id in list {
            let at = match index.names.get(next) {
                Some(name) if name >> 8 == *id => next,
                _ => index.names.partition_point(|name| *name < id << 8),
            };
            next = at + 1;
            if counts[at] == 0 {
                met[candidates] = at as u16;
                candidates += 1;
            }
            counts[at] += 1;
        }
    }
    for (place, key) in keys[..x].iter().enumerate().skip(signatures) {
        touches += candidates;
        if touches > budget {
            return None;
        }
        let list = list(*key);
        let (mut left, mut next) = (0, 0);
        for at in 0..candidates {
            let name = met[at] as usize;
            let id = index.names[name] >> 8;
            let stands = match list.get(next) {
                Some(other) if *other == id => next,
                _ => list.partition_point(|other| *other < id),
            };
            let found = list.get(stands) == Some(&id);
            next = stands + usize::from(found);
            let count = counts[name] + u32::from(found);
            if count as usize + x - place - 1 < least {
                counts[name] = 0;
            } else {
                counts[name] = count;
                met[left] = name as u16;
                left += 1;
            }
        }
        candidates = left;
    }
    for name in &met[..candidates] {
        answers[*name as usize] = counts[*name as usize];
    }
    Some(touches)
}

struct Lent<'a> {
    ids: &'a mut [u32],
    shared: &'a mut [u32],
    sizes: &'a mut [u32],
    least: &'a mut [u32],
}

fn run(query: &[u8], measure: u8, p: u16, q: u16, allowance: u32, index: &Index<'_>, lent: Lent<'_>) -> SearchAnswer {
    let (mut set, x) = features(query);
    set[..x].sort_unstable();
    let mut present = [false; FEATURES + 1];
    for name in index.names {
        present[(name & 255) as usize] = true;
    }
    let (wide_p, wide_q) = (u64::from(p), u64::from(q));
    let mut answers = [0u32; NAMES];
    let mut leasts = [0u32; FEATURES + 1];
    let (mut touches, mut under) = (0, 0);
    for y in (3..=FEATURES).filter(|y| present[*y]) {
        if searched(measure, wide_p, wide_q, x as u64, y as u64) {
            leasts[y] = least_count(measure, wide_p, wide_q, x as u64, y as u64) as u32;
            let budget = allowance as usize - touches;
            match one_size(index, &set[..x], y as u32, leasts[y] as usize, budget, &mut under, &mut answers) {
                None => return refused(7, allowance),
                Some(more) => touches += more,
            }
        }
    }
    let rows = answers.iter().filter(|count| **count > 0).count();
    if rows > lent.ids.len().min(lent.shared.len()).min(lent.sizes.len()).min(lent.least.len()) {
        return refused(8, touches as u32);
    }
    let mut row = 0;
    for (name, count) in index.names.iter().zip(answers) {
        if count > 0 {
            let size = name & 255;
            (lent.ids[row], lent.shared[row], lent.sizes[row]) = (name >> 8, count, size);
            lent.least[row] = leasts[size as usize];
            row += 1;
        }
    }
    let common = divisor(p, q);
    SearchAnswer { number: 0, rows: rows as u32, touches: touches as u32, p: p / common, q: q / common }
}

// ---- the build

fn digit(byte: u8) -> Option<u8> {
    match byte {
        b'0'..=b'9' => Some(byte - b'0'),
        b'A'..=b'F' => Some(byte - b'A' + 10),
        _ => None,
    }
}

/// The id and the name of a 4E line; the name goes to the buffer.
fn read_name<'a>(line: &[u8], buffer: &'a mut [u8; 255]) -> Option<(u32, &'a [u8])> {
    let digits = line.strip_suffix(b"\n")?;
    let (pairs, odd) = digits.as_chunks::<2>();
    if !odd.is_empty() || pairs.len() < 4 {
        return None;
    }
    let byte = |pair: &[u8; 2]| Some(digit(pair[0])? << 4 | digit(pair[1])?);
    let length = byte(&pairs[3])? as usize;
    if byte(&pairs[0])? != 0x4E || pairs.len() != 4 + length {
        return None;
    }
    let id = u32::from(byte(&pairs[1])?) << 8 | u32::from(byte(&pairs[2])?);
    for (into, pair) in buffer.iter_mut().zip(&pairs[4..]) {
        *into = byte(pair)?;
    }
    Some((id, &buffer[..length]))
}

fn triple(size: usize, feature: u32, id: u32) -> u64 {
    (size as u64) << 48 | u64::from(feature) << 16 | u64::from(id)
}

/// The names and the postings of a register, in its order; or the number and the line of a refusal.
fn read_register(register: &[u8], names: &mut Vec<u32>, triples: &mut Vec<u64>) -> Result<(), (u8, u32)> {
    let mut buffer = [0u8; 255];
    let mut least = 0;
    for (at, line) in register.split_inclusive(|byte| *byte == b'\n').enumerate() {
        let refuse = |number| Err((number, at as u32 + 1));
        let Some((id, name)) = read_name(line, &mut buffer) else { return refuse(11) };
        match judge(name) {
            0 if id < least => return refuse(9),
            0 if names.len() == NAMES => return refuse(10),
            0 => (),
            number => return refuse(number),
        }
        least = id + 1;
        let (set, size) = features(name);
        names.push(id << 8 | size as u32);
        triples.extend(set[..size].iter().map(|feature| triple(size, *feature, id)));
    }
    Ok(())
}

fn build(register: &[u8], words: &mut [u32]) -> BuildAnswer {
    let mut names = Vec::with_capacity(NAMES);
    let mut triples = Vec::with_capacity(POSTINGS);
    if let Err((number, line)) = read_register(register, &mut names, &mut triples) {
        words.fill(NOTHING);
        return BuildAnswer { number, line };
    }
    triples.sort_unstable();
    let rows = triples.chunk_by(|one, other| one >> 16 == other >> 16).count();
    let total = 3 + names.len() + 4 * rows + triples.len();
    if total > words.len() {
        words.fill(NOTHING);
        return BuildAnswer { number: 8, line: 0 };
    }
    let (used, beyond) = words.split_at_mut(total);
    beyond.fill(NOTHING);
    used[..3].copy_from_slice(&[names.len() as u32, rows as u32, triples.len() as u32]);
    let (head, postings) = used.split_at_mut(total - triples.len());
    let (head, into) = head.split_at_mut(3 + names.len());
    head[3..].copy_from_slice(&names);
    for (posting, triple) in postings.iter_mut().zip(&triples) {
        *posting = (triple & 0xFFFF) as u32;
    }
    let mut place = 0;
    for (row, run) in
        into.as_chunks_mut::<4>().0.iter_mut().zip(triples.chunk_by(|one, other| one >> 16 == other >> 16))
    {
        *row = [(run[0] >> 48) as u32, (run[0] >> 16) as u32, place, run.len() as u32];
        place += run.len() as u32;
    }
    BuildAnswer { number: 0, line: 0 }
}

// ---- for C: a slice is a pointer that is not null, and a length

macro_rules! lent {
    ($at:expr, $length:expr) => {
        unsafe { from_raw_parts($at, $length) }
    };
    (mut $at:expr, $length:expr) => {
        unsafe { from_raw_parts_mut($at, $length) }
    };
}

#[no_mangle]
pub extern "C" fn twin_good(words: *const u32, length: usize) -> bool {
    good(lent!(words, length))
}

#[no_mangle]
pub extern "C" fn twin_build(
    register: *const u8,
    register_length: usize,
    words: *mut u32,
    length: usize,
) -> BuildAnswer {
    build(lent!(register, register_length), lent!(mut words, length))
}

/// The search with its check of the index, or, where `checked` is false, of an index that is known to be good.
#[no_mangle]
#[allow(clippy::too_many_arguments)]
pub extern "C" fn twin_search(
    query: *const u8,
    query_length: usize,
    measure: u8,
    p: u16,
    q: u16,
    allowance: u32,
    words: *const u32,
    length: usize,
    ids: *mut u32,
    shared: *mut u32,
    sizes: *mut u32,
    least: *mut u32,
    room: usize,
    checked: bool,
) -> SearchAnswer {
    let (query, words) = (lent!(query, query_length), lent!(words, length));
    let number = question(query, measure, p, q);
    if number != 0 {
        return refused(number, 0);
    }
    if checked && !good(words) {
        return refused(6, 0);
    }
    let Some(index) = cut(words) else { return refused(6, 0) };
    let lent = Lent {
        ids: lent!(mut ids, room),
        shared: lent!(mut shared, room),
        sizes: lent!(mut sizes, room),
        least: lent!(mut least, room),
    };
    run(query, measure, p, q, allowance, &index, lent)
}

/// The postings of a good register in its order, one number each; answers how many.
#[no_mangle]
pub extern "C" fn twin_triples(register: *const u8, length: usize, triples: *mut u64, room: usize) -> usize {
    let (mut names, mut found) = (Vec::new(), Vec::new());
    if read_register(lent!(register, length), &mut names, &mut found).is_err() || found.len() > room {
        return 0;
    }
    lent!(mut triples, found.len()).copy_from_slice(&found);
    found.len()
}

/// Rust's own sort, nothing else.
#[no_mangle]
pub extern "C" fn twin_sort(triples: *mut u64, length: usize) {
    lent!(mut triples, length).sort_unstable();
}
