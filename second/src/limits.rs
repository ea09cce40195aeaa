//! Every number that the rule fixes, once each.

/// The most bytes of a name or query.
pub const NAME_BYTES: usize = 200;
/// The least size: a name of one byte.
pub const LEAST_SIZE: u32 = 3;
/// The greatest size: a name of [`NAME_BYTES`] bytes, which has two features more.
pub const MOST_SIZE: u32 = NAME_BYTES as u32 + 2;
/// The greatest id.
pub const MOST_ID: u32 = 65_535;
/// The most names of an index; one more in a register is a refusal.
pub const NAMES: usize = 256;
/// The most postings of an index, and the most touches of a search: each name of the greatest size.
pub const POSTINGS: usize = NAMES * MOST_SIZE as usize;
/// The greatest q of a threshold.
pub const MOST_Q: u32 = 1000;
/// What a build, an add and a withdrawal leave in every word that is not part of the index.
pub const BLANK: u32 = 4_294_967_295;
/// The most bytes of a name in a frame, whose length is one byte.
pub const FRAME_NAME: usize = 255;
/// The most bytes of input that the program takes.
pub const INPUT: usize = 65_536;
/// The words of the program's index.
pub const INDEX_WORDS: usize = 16_384;
/// The rows of the program's row list.
pub const ROWS: usize = 256;
/// The most lines of a log; one more is a refusal.
pub const LOG_LINES: usize = 1024;
/// The days of a week.
pub const WEEK: u32 = 7;
/// The reading that says that there is none.
pub const NO_READING: u16 = 65_535;
/// The words of the importer's index: room for every register.
pub const IMPORTER_WORDS: usize = 3 + NAMES + 5 * POSTINGS;
/// The most bytes of input that the importer takes: 256 of the longest 4E lines (519 bytes each), a 51 line with an empty
/// name (23), and 1,024 of the longest 4C lines (523 each).
pub const IMPORTER_INPUT: usize = 668_439;
