//! Inputs for comparisons, whole and damaged, one for each number under a seed. The kinds are those of `protocol`.
//! What is rare in life (a name of 200 bytes, an allowance one below the count) is common here.

mod cases;
mod imports;
pub mod lines;
pub mod logs;
mod many;
pub mod names;
pub mod queries;
pub mod registers;
mod upkeep;
pub mod words;

use crate::protocol::{spaced, Kind};
use crate::random::Random;

/// The input number `at` of a kind under a seed: for a program a whole input, for the others one line of the protocol.
pub fn input(kind: Kind, seed: u64, at: u64) -> Vec<u8> {
    let mut random = Random::of(seed, kind as u64, at);
    let make = match kind {
        Kind::Lookup => return cases::lookup(&mut random),
        Kind::Features => cases::features,
        Kind::Likeness => cases::likeness,
        Kind::Good => cases::good,
        Kind::List => cases::list,
        Kind::Build => cases::build,
        Kind::Search => cases::search,
        Kind::Frames => cases::frames,
        Kind::Import => imports::import,
        Kind::Importer => return imports::importer(&mut random),
        Kind::LogFrames => cases::log_frames,
        Kind::ImportFrames => cases::import_frames,
        Kind::Add => upkeep::add,
        Kind::Withdraw => upkeep::withdraw,
        Kind::Calls => upkeep::calls,
        Kind::Many => many::many,
        Kind::Sweep => {
            let mut of_index = Random::of(seed, kind as u64, at / words::STRETCH);
            return [spaced(&words::swept(&mut of_index, at % words::STRETCH)).into_bytes(), b"\n".to_vec()].concat();
        }
    };
    let mut line = make(&mut random).into_bytes();
    line.push(b'\n');
    line
}
