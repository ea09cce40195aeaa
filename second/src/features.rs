//! What a name is, and its features.

use crate::limits::NAME_BYTES;
use crate::refusal::Refusal;

/// Three bytes that stand side by side in a padded name.
pub type Gram = [u8; 3];

/// Whether a byte is a control character.
pub fn control(byte: u8) -> bool {
    byte < 32 || byte == 127
}

/// Refuses what is no name: empty, then longer than 200 bytes, then holding a 0 byte, then holding another control character.
pub fn judge(name: &[u8]) -> Result<(), Refusal> {
    if name.is_empty() {
        return Err(Refusal::Empty);
    }
    if name.len() > NAME_BYTES {
        return Err(Refusal::Long);
    }
    if name.contains(&0) {
        return Err(Refusal::Zero);
    }
    if name.iter().any(|byte| control(*byte)) {
        return Err(Refusal::Control);
    }
    Ok(())
}

/// Every run of three of the name with two 0 bytes before and two after it: two more than it has bytes.
pub fn grams(name: &[u8]) -> Vec<Gram> {
    let padded = [&[0, 0], name, &[0, 0]].concat();
    padded.windows(3).map(|run| [run[0], run[1], run[2]]).collect()
}

/// Which appearance of its gram stands at a place, from 1: how often the gram is there up to and with that place.
pub fn number_at(grams: &[Gram], at: usize) -> u32 {
    grams[..=at].iter().filter(|gram| **gram == grams[at]).count() as u32
}

/// The feature of a gram and its number.
pub fn feature(gram: Gram, number: u32) -> u32 {
    u32::from(gram[0]) * 16_777_216 + u32::from(gram[1]) * 65_536 + u32::from(gram[2]) * 256 + number
}

/// The features of a name in order of appearance, all different; none for a refused name.
pub fn features(name: &[u8]) -> Vec<u32> {
    if judge(name).is_err() {
        return Vec::new();
    }
    numbered(name)
}

/// The features of bytes that are not judged.
pub fn numbered(name: &[u8]) -> Vec<u32> {
    let grams = grams(name);
    (0..grams.len()).map(|at| feature(grams[at], number_at(&grams, at))).collect()
}
