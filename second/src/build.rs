//! Register lines to index words.

use std::collections::BTreeSet;

use crate::features::{features, judge};
use crate::frames::read_name;
use crate::limits::{BLANK, FRAME_NAME, LEAST_SIZE, MOST_SIZE, NAMES};
use crate::refusal::Refusal;

/// What a build returns: 0 and line 0, or a refusal's number and the line that it is about, 0 for the whole.
#[derive(Clone, Copy, Debug, PartialEq, Eq)]
pub struct Built {
    pub number: u8,
    pub line: usize,
}

/// A name of a register.
#[derive(Clone, Debug, PartialEq, Eq)]
pub struct Registered {
    pub id: u32,
    pub name: Vec<u8>,
}

/// The lines of some bytes, each with its line feed; a last stretch without one is a line too, an empty one is not.
pub fn lines(bytes: &[u8]) -> Vec<&[u8]> {
    bytes.split_inclusive(|byte| *byte == b'\n').collect()
}

/// The name of one register line after the names before it, judged 11, 1, 2, 3, 12, 9, 10.
pub fn register_line(line: &[u8], before: &[Registered]) -> Result<Registered, Refusal> {
    let mut buffer = [0; FRAME_NAME];
    let frame = read_name(line, &mut buffer);
    if frame.number != 0 {
        return Err(Refusal::Malformed);
    }
    let name = buffer[..usize::from(frame.length)].to_vec();
    judge(&name)?;
    let id = u32::from(frame.id);
    if before.last().is_some_and(|last| id <= last.id) {
        return Err(Refusal::Order);
    }
    if before.len() == NAMES {
        return Err(Refusal::Crowd);
    }
    Ok(Registered { id, name })
}

/// The names of a register, or the first bad line's refusal and its number from 1.
pub fn register_names(register: &[u8]) -> Result<Vec<Registered>, (Refusal, usize)> {
    let mut names = Vec::new();
    for (at, line) in lines(register).into_iter().enumerate() {
        let name = register_line(line, &names).map_err(|refusal| (refusal, at + 1))?;
        names.push(name);
    }
    Ok(names)
}

/// The index words of names, each an id and its features, in ascending id. A name's size is how many features it has.
pub fn words_of(names: &[(u32, Vec<u32>)]) -> Vec<u32> {
    let mut rows = Vec::new();
    let mut postings = Vec::new();
    let sizes: BTreeSet<usize> = names.iter().map(|(_, features)| features.len()).collect();
    for size in sizes {
        let of_size: Vec<_> = names.iter().filter(|(_, features)| features.len() == size).collect();
        let used: BTreeSet<u32> = of_size.iter().flat_map(|(_, features)| features.iter().copied()).collect();
        for feature in used {
            let list: Vec<u32> =
                of_size.iter().filter(|(_, features)| features.contains(&feature)).map(|(id, _)| *id).collect();
            rows.extend([size as u32, feature, postings.len() as u32, list.len() as u32]);
            postings.extend(list);
        }
    }
    let mut words = vec![names.len() as u32, rows.len() as u32 / 4, postings.len() as u32];
    words.extend(names.iter().map(|(id, features)| id * 256 + features.len() as u32));
    words.extend(rows);
    words.extend(postings);
    words
}

/// The index words of registered names.
pub fn words_of_names(names: &[Registered]) -> Vec<u32> {
    let featured: Vec<(u32, Vec<u32>)> = names.iter().map(|name| (name.id, features(&name.name))).collect();
    debug_assert!(featured.iter().all(|(_, f)| (LEAST_SIZE..=MOST_SIZE).contains(&(f.len() as u32))));
    words_of(&featured)
}

/// Builds the index of a register into the words. Every word is set: those of the index, and all others,
/// after a refusal every one, to 4,294,967,295.
pub fn build(register: &[u8], words: &mut [u32]) -> Built {
    words.fill(BLANK);
    let names = match register_names(register) {
        Ok(names) => names,
        Err((refusal, line)) => return Built { number: refusal.number(), line },
    };
    let index = words_of_names(&names);
    if index.len() > words.len() {
        return Built { number: Refusal::Room.number(), line: 0 };
    }
    words[..index.len()].copy_from_slice(&index);
    Built { number: 0, line: 0 }
}
