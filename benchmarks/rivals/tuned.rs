//! The tuned rival: distances are looked up in a table that is filled once per settling.
//!
//! The table has a row for each candidate: its distances from all candidates of the tones before, side by side. A distance over
//! its bound stands in it as an amount that no distance has.

mod common;

use common::draft::{Draft, MOST_TONES};
use common::search::{self, Pairs};
use common::settling::Outcome;
use common::talk;
use std::process::ExitCode;

fn main() -> ExitCode {
    talk::converse(settle)
}

fn settle(draft: &Draft, allowance: u64) -> Outcome {
    search::settle::<Table>(draft, allowance)
}

/// Where a distance is over its bound.
const FAR: u32 = u32::MAX;

/// The table, and the candidates that are laid, by their numbers among all candidates.
struct Table {
    rows: Vec<u32>,
    /// How many candidates there are in all, which is how long a row is.
    width: usize,
    /// How many candidates come before those of each tone.
    before: [usize; MOST_TONES],
    laid: [u8; MOST_TONES],
}

impl<'a> Pairs<'a> for Table {
    fn of(draft: &'a Draft) -> Self {
        let mut before = [0; MOST_TONES];
        let mut width = 0;
        for (first, tone) in before.iter_mut().zip(&draft.tones) {
            *first = width;
            width += tone.candidates.len();
        }
        let mut table = Table { rows: vec![FAR; width * width], width, before, laid: [0; MOST_TONES] };
        for tone in 0..draft.tones.len() {
            table.fill(draft, tone);
        }
        table
    }

    fn lay(&mut self, tone: usize, number: usize) {
        self.laid[tone] = (self.before[tone] + number) as u8;
    }

    fn cost_with(&self, tone: usize, number: usize, cost: u64) -> Option<u64> {
        let row = &self.rows[(self.before[tone] + number) * self.width..][..self.width];
        let mut sum = cost;
        for &laid in &self.laid[..tone] {
            let distance = row[usize::from(laid)];
            if distance == FAR {
                return None;
            }
            sum += u64::from(distance);
        }
        Some(sum)
    }
}

impl Table {
    /// Fills the rows of a tone's candidates.
    fn fill(&mut self, draft: &Draft, tone: usize) {
        for (number, ratio) in draft.tones[tone].candidates.iter().enumerate() {
            let first = (self.before[tone] + number) * self.width;
            for (earlier, &bound) in draft.bounds_before(tone).iter().enumerate() {
                for (other, from) in draft.tones[earlier].candidates.iter().enumerate() {
                    let distance = from.distance(ratio);
                    if distance <= bound {
                        self.rows[first + self.before[earlier] + other] = distance;
                    }
                }
            }
        }
    }
}
