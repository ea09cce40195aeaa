//! Names: fresh ones, ones like another, and ones that are refused.

use crate::features::control;
use crate::limits::NAME_BYTES;
use crate::random::Random;

const WORDS: [&str; 20] = [
    "LANE",
    "LANES",
    "PLANE",
    "POOL",
    "LAP",
    "SPA",
    "DIVE",
    "KIDS",
    "EAST",
    "WEST",
    "HALL",
    "BASIN",
    "WAVE",
    "P1",
    "A",
    "North Side",
    "Olympic",
    "learner",
    "CAF\u{c9}",
    "25m",
];

/// Control characters that a keypad may send, and those at the edges: 1 and 31, and 127.
const CONTROLS: [u8; 7] = [1, 8, 9, 10, 27, 31, 127];

/// A name of a given length: of one letter, of two, of a few, of those at the edges of what passes, or of any that pass.
pub fn of_length(random: &mut Random, length: usize) -> Vec<u8> {
    let any: Vec<u8> = (0..=255).filter(|byte| !control(*byte)).collect();
    let letters = match random.below(8) {
        0 => b"A".to_vec(),
        1 | 2 => b"AB".to_vec(),
        3 | 4 => b"ABCD".to_vec(),
        5 => b"ABCDEFGHIJKLMNOPQRSTUVWXYZ".to_vec(),
        6 => vec![32, 126, 128, 254, 255],
        _ => any,
    };
    (0..length).map(|_| random.pick(&letters)).collect()
}

/// Words in a row, at most [`NAME_BYTES`] of them.
fn of_words(random: &mut Random) -> Vec<u8> {
    let words: Vec<&str> = (0..random.between(1, 3)).map(|_| random.pick(&WORDS)).collect();
    let mut name = words.join(random.pick(&["", " ", "-"])).into_bytes();
    name.truncate(NAME_BYTES);
    name
}

/// A name, often of a length at an edge.
pub fn fresh(random: &mut Random) -> Vec<u8> {
    match random.below(10) {
        0..=4 => of_words(random),
        5..=7 => {
            let length = random.between(1, 12);
            of_length(random, length)
        }
        8 => {
            let length = random.pick(&[1, 1, 2, 3, 63, 64, 65, 66, NAME_BYTES - 1, NAME_BYTES, NAME_BYTES]);
            of_length(random, length)
        }
        _ => {
            let length = random.between(1, NAME_BYTES);
            of_length(random, length)
        }
    }
}

/// A name of six or seven of three letters: names of these share a few features each and all have two sizes, so that
/// searches drop candidates.
pub fn even(random: &mut Random) -> Vec<u8> {
    (0..random.between(6, 7)).map(|_| random.pick(b"ABC")).collect()
}

/// A short name, so that many of them fit into one index.
pub fn short(random: &mut Random) -> Vec<u8> {
    let length = random.between(1, 4);
    of_length(random, length)
}

/// A name with one to three edits, still of a length that passes and without a control character.
pub fn like(random: &mut Random, name: &[u8]) -> Vec<u8> {
    let mut other = name.to_vec();
    for _ in 0..random.between(1, 3) {
        let at = random.below(other.len());
        let any = random.between(32, 255) as u8;
        let byte = if random.once_in(2) && !control(any) { any } else { random.pick(&other) };
        match random.below(7) {
            0 => other[at] = byte,
            1 | 2 if other.len() < NAME_BYTES => other.insert(at, byte),
            3 if other.len() > 1 => {
                other.remove(at);
            }
            4 if other.len() < NAME_BYTES => other.push(byte),
            5 if 2 * other.len() <= NAME_BYTES => other = [&other[..], &other[..]].concat(),
            _ => {
                let with = random.below(other.len());
                other.swap(at, with);
            }
        }
    }
    other
}

/// A name with a control character other than 0 in the place of one of its bytes.
pub fn with_control(random: &mut Random, mut name: Vec<u8>) -> Vec<u8> {
    let at = random.below(name.len());
    name[at] = random.pick(&CONTROLS);
    name
}

/// A name that is refused: empty, too long, holding a 0 byte, too long and holding one, holding another control
/// character, or holding both.
pub fn bad(random: &mut Random) -> Vec<u8> {
    match random.below(10) {
        0 => Vec::new(),
        1 | 2 => {
            let length = random.pick(&[NAME_BYTES + 1, NAME_BYTES + 1, NAME_BYTES + 2, NAME_BYTES + 3, 254, 255]);
            of_length(random, length)
        }
        3 | 4 => {
            let mut name = fresh(random);
            let at = random.below(name.len());
            name[at] = 0;
            name
        }
        5 => {
            let mut name = of_length(random, NAME_BYTES + 1);
            let at = random.below(name.len());
            name[at] = random.pick(&[0, 9, 127]);
            name
        }
        6..=8 => {
            let name = fresh(random);
            with_control(random, name)
        }
        _ => {
            let mut name = fresh(random);
            name.truncate(NAME_BYTES - 2);
            name.insert(random.below(name.len()), 0);
            name.insert(random.below(name.len()), random.pick(&CONTROLS));
            name
        }
    }
}
