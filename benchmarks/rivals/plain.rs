//! The plain rival: each distance is computed when it is asked.

mod common;

use common::draft::{Draft, MOST_TONES};
use common::ratio::Ratio;
use common::search::{self, Pairs};
use common::settling::Outcome;
use common::talk;
use std::process::ExitCode;

fn main() -> ExitCode {
    talk::converse(settle)
}

fn settle(draft: &Draft, allowance: u64) -> Outcome {
    search::settle::<Computed>(draft, allowance)
}

/// The ratios that are laid.
struct Computed<'a> {
    draft: &'a Draft,
    laid: [Ratio; MOST_TONES],
}

impl<'a> Pairs<'a> for Computed<'a> {
    fn of(draft: &'a Draft) -> Self {
        Computed { draft, laid: [Ratio::default(); MOST_TONES] }
    }

    fn lay(&mut self, tone: usize, number: usize) {
        self.laid[tone] = self.draft.tones[tone].candidates[number];
    }

    fn cost_with(&self, tone: usize, number: usize, cost: u64) -> Option<u64> {
        let ratio = &self.draft.tones[tone].candidates[number];
        let mut sum = cost;
        for (laid, &bound) in self.laid.iter().zip(self.draft.bounds_before(tone)) {
            let distance = laid.distance(ratio);
            if distance > bound {
                return None;
            }
            sum += u64::from(distance);
        }
        Some(sum)
    }
}
