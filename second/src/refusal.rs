//! The numbered refusals. The order in which they are judged is not here: each function that refuses has its own.

/// Why there is no answer. Its number is what a caller gets; 0, answered, is no refusal.
#[derive(Clone, Copy, Debug, PartialEq, Eq)]
pub enum Refusal {
    /// The name or query is empty.
    Empty = 1,
    /// The name or query is too long: for a name past 200 bytes, for a frame writer past 255.
    Long = 2,
    /// The name or query holds a 0 byte.
    Zero = 3,
    /// The measure is not 1 to 4.
    Measure = 4,
    /// Not 1 ≤ p ≤ q ≤ 1000.
    Threshold = 5,
    /// The index is not good.
    NotGood = 6,
    /// The touches needed exceed the allowance.
    Allowance = 7,
    /// What is lent is too small: rows, words, bytes, outcomes or pairs; or a program's input is too large.
    Room = 8,
    /// The register id is not above the one before; the id of an add is live.
    Order = 9,
    /// A 257th name, of a register or by an add, or the 1,025th line of a log.
    Crowd = 10,
    /// A malformed frame.
    Malformed = 11,
    /// The name or query holds a control character other than 0.
    Control = 12,
    /// The id of a withdrawal is not live.
    NotLive = 13,
}

impl Refusal {
    pub fn number(self) -> u8 {
        self as u8
    }
}

/// The number of a judgement: 0 where nothing is refused.
pub fn number_of(judged: Result<(), Refusal>) -> u8 {
    judged.map_or_else(Refusal::number, |()| 0)
}
