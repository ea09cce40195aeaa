//! The similar names by definition, with no index and no counting of touches: every name is compared with the query,
//! shared features are those of both sets, and the similarity is an exact fraction. The counted search is tested
//! against this.

use std::collections::BTreeSet;

use crate::build::Registered;
use crate::features::features;
use crate::index::Index;
use crate::measures::{Measure, Threshold};
use crate::search::AnswerRow;

/// A fraction of whole numbers, not in lowest terms.
#[derive(Clone, Copy, Debug)]
pub struct Fraction {
    pub over: u128,
    pub under: u128,
}

impl Fraction {
    /// Whether this is at least the other, both with something above 0 under the line.
    pub fn at_least(self, other: Fraction) -> bool {
        self.over * other.under >= other.over * self.under
    }

    pub fn squared(self) -> Fraction {
        Fraction { over: self.over * self.over, under: self.under * self.under }
    }
}

/// The similarity of two sets by how many features each has, both share and either has, for the cosine its square, which
/// is a fraction where the cosine may not be.
fn fraction(measure: Measure, x: u128, y: u128, shared: u128, either: u128) -> Fraction {
    match measure {
        Measure::Dice => Fraction { over: 2 * shared, under: x + y },
        Measure::Jaccard => Fraction { over: shared, under: either },
        Measure::Cosine => Fraction { over: shared * shared, under: x * y },
        Measure::Overlap => Fraction { over: shared, under: x.min(y) },
    }
}

/// The similarity of two sets of features, for the cosine its square.
pub fn similarity(measure: Measure, one: &BTreeSet<u32>, other: &BTreeSet<u32>) -> Fraction {
    let shared = one.intersection(other).count() as u128;
    let either = one.union(other).count() as u128;
    fraction(measure, one.len() as u128, other.len() as u128, shared, either)
}

/// What a similarity is to reach: the threshold, for the cosine its square.
fn wanted(measure: Measure, threshold: Threshold) -> Fraction {
    let threshold = Fraction { over: u128::from(threshold.p()), under: u128::from(threshold.q()) };
    if measure == Measure::Cosine {
        threshold.squared()
    } else {
        threshold
    }
}

/// Whether two sets of features are similar.
pub fn reaches(measure: Measure, threshold: Threshold, one: &BTreeSet<u32>, other: &BTreeSet<u32>) -> bool {
    similarity(measure, one, other).at_least(wanted(measure, threshold))
}

/// The least count for two sizes: the first from 1 upward with which they are similar; 0 where they are not even with the
/// whole of the smaller shared.
pub fn least(measure: Measure, threshold: Threshold, x: usize, y: usize) -> usize {
    let similar = |shared: &usize| {
        let (x, y, shared) = (x as u128, y as u128, *shared as u128);
        fraction(measure, x, y, shared, x + y - shared).at_least(wanted(measure, threshold))
    };
    (1..=x.min(y)).find(similar).unwrap_or(0)
}

/// The rows of the similar among sets of features, each with its id, in the order given.
pub fn listed(
    query: &BTreeSet<u32>,
    names: &[(u32, BTreeSet<u32>)],
    measure: Measure,
    threshold: Threshold,
) -> Vec<AnswerRow> {
    let similar = names.iter().filter(|(_, features)| reaches(measure, threshold, query, features));
    let row = |(id, features): &(u32, BTreeSet<u32>)| AnswerRow {
        id: *id,
        shared: query.intersection(features).count() as u32,
        size: features.len() as u32,
        least: least(measure, threshold, query.len(), features.len()) as u32,
    };
    similar.map(row).collect()
}

/// Each registered name with its own features.
pub fn features_of_names(names: &[Registered]) -> Vec<(u32, BTreeSet<u32>)> {
    names.iter().map(|name| (name.id, features(&name.name).into_iter().collect())).collect()
}

/// Each name of a good index with the features whose lists hold it.
pub fn features_of_index(index: &Index<'_>) -> Vec<(u32, BTreeSet<u32>)> {
    let holding = |id: u32| {
        let rows = index.rows.iter().filter(move |row| index.list(row).is_some_and(|list| list.contains(&id)));
        rows.map(|row| row.feature).collect()
    };
    index.names.iter().map(|name| (name.id, holding(name.id))).collect()
}
