//! What may come of a settling.

use super::draft::MOST_TONES;

pub const LARGEST_ALLOWANCE: u64 = 1_000_000_000;

/// The number of the candidate that each tone gets.
pub type Choice = [u8; MOST_TONES];

pub enum Outcome {
    Spent,
    NoScale,
    Scale { cost: u64, trials: u64, choice: Choice },
}
