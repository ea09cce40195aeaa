//! The index words cut into names, rows and postings, and the list of a size and feature.
//! Whether the words are a good index is judged in `good`; how they come from a register is in `build`.

use crate::good::good;

/// A row of four words: the list of the names of one size that have one feature.
#[derive(Clone, Copy, Debug, PartialEq, Eq)]
pub struct IndexRow {
    pub size: u32,
    pub feature: u32,
    pub place: u32,
    pub count: u32,
}

/// A name word, taken apart.
#[derive(Clone, Copy, Debug, PartialEq, Eq)]
pub struct IndexName {
    pub id: u32,
    pub size: u32,
}

/// Index words cut into their parts.
pub struct Index<'a> {
    pub names: Vec<IndexName>,
    pub rows: Vec<IndexRow>,
    pub postings: &'a [u32],
    /// Where the postings begin among the words.
    pub start: usize,
}

/// N, D and P, or none where the slice is shorter than three words.
pub fn header(words: &[u32]) -> Option<(u32, u32, u32)> {
    match words {
        [names, rows, postings, ..] => Some((*names, *rows, *postings)),
        _ => None,
    }
}

/// The words that N names, D rows and P postings take.
pub fn total(names: u32, rows: u32, postings: u32) -> u64 {
    3 + u64::from(names) + 4 * u64::from(rows) + u64::from(postings)
}

/// The words cut into parts, or none where they are too few for what word 0, 1 and 2 say.
pub fn cut(words: &[u32]) -> Option<Index<'_>> {
    let (names, rows, postings) = header(words)?;
    if total(names, rows, postings) > words.len() as u64 {
        return None;
    }
    let (names, rows, postings) = (names as usize, rows as usize, postings as usize);
    let start = 3 + names + 4 * rows;
    let name = |word: &u32| IndexName { id: word / 256, size: word % 256 };
    let row = |four: &[u32]| IndexRow { size: four[0], feature: four[1], place: four[2], count: four[3] };
    Some(Index {
        names: words[3..3 + names].iter().map(name).collect(),
        rows: words[3 + names..start].chunks(4).map(row).collect(),
        postings: &words[start..start + postings],
        start,
    })
}

impl<'a> Index<'a> {
    /// The list of a row, or none where it runs past the postings.
    pub fn list(&self, row: &IndexRow) -> Option<&'a [u32]> {
        let end = (row.place as usize).checked_add(row.count as usize)?;
        self.postings.get(row.place as usize..end)
    }

    /// The list of a size and feature, or the empty list where no row exists: none has a feature beyond 32 bits.
    pub fn list_for(&self, size: u32, feature: impl Into<u64>) -> &'a [u32] {
        let feature = feature.into();
        let row = self.rows.iter().find(|row| row.size == size && u64::from(row.feature) == feature);
        row.and_then(|row| self.list(row)).unwrap_or(&[])
    }
}

/// The words cut into parts, or none where they are no good index.
pub fn good_index(words: &[u32]) -> Option<Index<'_>> {
    if good(words) {
        cut(words)
    } else {
        None
    }
}

/// The list of a size and feature as that very part of the words, empty where no row exists or the index is not good.
pub fn list_for(words: &[u32], size: u32, feature: impl Into<u64>) -> &[u32] {
    good_index(words).map_or(&[], |index| index.list_for(size, feature))
}
