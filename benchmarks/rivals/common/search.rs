//! The search in list order, over any way to find the distances of pairs.

use super::draft::{Draft, MOST_TONES};
use super::settling::{Choice, Outcome};

/// How the distances of a candidate from the candidates that are laid are found.
pub trait Pairs<'a> {
    fn of(draft: &'a Draft) -> Self;

    /// Lays this candidate at a tone.
    fn lay(&mut self, tone: usize, number: usize);

    /// What a start of this cost costs with one candidate more, if it then keeps the bounds.
    fn cost_with(&self, tone: usize, number: usize, cost: u64) -> Option<u64>;
}

struct Spent;

/// How far a search has come: the numbers that are laid, the best choice so far, and the trials.
struct Search<'a, P> {
    draft: &'a Draft,
    pairs: P,
    allowance: u64,
    trials: u64,
    numbers: Choice,
    best: u64,
    choice: Choice,
}

/// More than any scale costs.
const ENDLESS: u64 = u64::MAX;

pub fn settle<'a, P: Pairs<'a>>(draft: &'a Draft, allowance: u64) -> Outcome {
    let mut search = Search {
        draft,
        pairs: P::of(draft),
        allowance,
        trials: 0,
        numbers: [0; MOST_TONES],
        best: ENDLESS,
        choice: [0; MOST_TONES],
    };
    match search.descend(0, 0) {
        Err(Spent) => Outcome::Spent,
        Ok(()) if search.best == ENDLESS => Outcome::NoScale,
        Ok(()) => Outcome::Scale { cost: search.best, trials: search.trials, choice: search.choice },
    }
}

impl<'a, P: Pairs<'a>> Search<'a, P> {
    /// Searches all that extends the start of the first tones, which is live and has this cost.
    fn descend(&mut self, tone: usize, cost: u64) -> Result<(), Spent> {
        let draft = self.draft;
        if tone == draft.tones.len() {
            self.best = cost;
            self.choice = self.numbers;
            return Ok(());
        }
        for number in 0..draft.tones[tone].candidates.len() {
            if self.trials == self.allowance {
                return Err(Spent);
            }
            self.trials += 1;
            match self.pairs.cost_with(tone, number, cost) {
                Some(longer) if longer < self.best => {
                    self.pairs.lay(tone, number);
                    self.numbers[tone] = number as u8;
                    self.descend(tone + 1, longer)?;
                }
                _ => {}
            }
        }
        Ok(())
    }
}
