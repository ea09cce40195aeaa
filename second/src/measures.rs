//! The four measures over a threshold p/q, by products of whole numbers wide enough never to overflow.
//! The same likeness as fractions, for the check by definition, is in `listed`.

use crate::limits::MOST_Q;
use crate::refusal::Refusal;

#[derive(Clone, Copy, Debug, PartialEq, Eq)]
pub enum Measure {
    Dice,
    Jaccard,
    Cosine,
    Overlap,
}

/// The measures by their numbers, 1 to 4.
pub const MEASURES: [Measure; 4] = [Measure::Dice, Measure::Jaccard, Measure::Cosine, Measure::Overlap];

impl Measure {
    /// The measure of a number, refused where the number is not 1 to 4.
    pub fn of(number: u32) -> Result<Measure, Refusal> {
        match number {
            1 => Ok(Measure::Dice),
            2 => Ok(Measure::Jaccard),
            3 => Ok(Measure::Cosine),
            4 => Ok(Measure::Overlap),
            _ => Err(Refusal::Measure),
        }
    }
}

/// A threshold p/q with 1 ≤ p ≤ q ≤ 1000, as given and not in lowest terms.
#[derive(Clone, Copy, Debug, PartialEq, Eq)]
pub struct Threshold {
    p: u32,
    q: u32,
}

impl Threshold {
    /// The threshold p/q, refused where not 1 ≤ p ≤ q ≤ 1000.
    pub fn of(p: u32, q: u32) -> Result<Threshold, Refusal> {
        if 1 <= p && p <= q && q <= MOST_Q {
            Ok(Threshold { p, q })
        } else {
            Err(Refusal::Threshold)
        }
    }

    pub fn p(self) -> u32 {
        self.p
    }

    pub fn q(self) -> u32 {
        self.q
    }

    /// The threshold in lowest terms: both divided by the greatest number that divides both.
    pub fn lowest(self) -> (u32, u32) {
        let divisor = (1..=self.p).rev().find(|d| self.p.is_multiple_of(*d) && self.q.is_multiple_of(*d)).unwrap_or(1);
        (self.p / divisor, self.q / divisor)
    }
}

/// Whether sizes x and y with c shared features reach the threshold.
pub fn similar(measure: Measure, threshold: Threshold, x: u32, y: u32, c: u32) -> bool {
    let (p, q) = (i128::from(threshold.p), i128::from(threshold.q));
    let (x, y, c) = (i128::from(x), i128::from(y), i128::from(c));
    match measure {
        Measure::Dice => 2 * c * q >= p * (x + y),
        Measure::Jaccard => c * q >= p * (x + y - c),
        Measure::Cosine => c * c * q * q >= p * p * x * y,
        Measure::Overlap => c * q >= p * x.min(y),
    }
}

/// Whether size y is searched for a query of size x.
pub fn searched(measure: Measure, threshold: Threshold, x: u32, y: u32) -> bool {
    let (p, q) = (i128::from(threshold.p), i128::from(threshold.q));
    let (x, y) = (i128::from(x), i128::from(y));
    match measure {
        Measure::Dice => p * x <= (2 * q - p) * y && p * y <= (2 * q - p) * x,
        Measure::Jaccard => p * x <= q * y && p * y <= q * x,
        Measure::Cosine => p * p * x <= q * q * y && p * p * y <= q * q * x,
        Measure::Overlap => true,
    }
}

/// The first c from 1 upward that passes. It is never past x+y, where every measure passes, or 1.
pub fn least_count(measure: Measure, threshold: Threshold, x: u32, y: u32) -> u32 {
    (1..=x + y).find(|c| similar(measure, threshold, x, y, *c)).unwrap_or(1)
}
