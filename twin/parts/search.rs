//! Settling by a search in list order that leaves a start as soon as nothing better can come of it.
//!
//! When the search comes to a start, the best choice found so far is the best of all those that keep the bounds and begin
//! with numbers before it, so the starts from which it goes on are exactly the live ones.

use crate::costing::Costing;
use crate::settling::{Outcome, Posed};

pub fn settle<C: Costing>(posed: &Posed, allowance: u64) -> Outcome<C::Value> {
    let mut search = Search::<C> { posed, allowance, trials: 0, start: Vec::new(), best: None };
    match search.go_on(C::nil()) {
        Err(Spent) => Outcome::Spent,
        Ok(()) => search.outcome(),
    }
}

struct Spent;

struct Search<'a, C: Costing> {
    posed: &'a Posed,
    allowance: u64,
    trials: u64,
    start: Vec<usize>,
    best: Option<(C::Value, Vec<usize>)>,
}

impl<C: Costing> Search<'_, C> {
    /// Goes on from the start, which is live and has this cost.
    fn go_on(&mut self, cost: C::Value) -> Result<(), Spent> {
        let tone = self.start.len();
        if tone == self.posed.tones() {
            self.best = Some((cost, self.start.clone()));
            return Ok(());
        }
        for candidate in 0..self.posed.candidates(tone) {
            self.count_trial()?;
            if let Some(longer) = self.live_cost(cost, candidate) {
                self.start.push(candidate);
                self.go_on(longer)?;
                self.start.pop();
            }
        }
        Ok(())
    }

    fn count_trial(&mut self) -> Result<(), Spent> {
        self.trials += 1;
        if self.trials > self.allowance {
            Err(Spent)
        } else {
            Ok(())
        }
    }

    /// What the start costs with this candidate of the next tone after it, if it is then still live.
    fn live_cost(&self, mut cost: C::Value, candidate: usize) -> Option<C::Value> {
        let tone = self.start.len();
        for (other, &others) in self.start.iter().enumerate() {
            let distance = self.posed.distance(tone, candidate, other, others);
            if distance > self.posed.bound(tone, other) {
                return None;
            }
            cost = C::joined(cost, C::of(distance));
        }
        match &self.best {
            Some((best, _)) if !C::less(cost, *best) => None,
            _ => Some(cost),
        }
    }

    fn outcome(self) -> Outcome<C::Value> {
        let trials = self.trials;
        match self.best {
            Some((cost, choice)) => Outcome::Scale { choice, cost, trials },
            None => Outcome::NoScale { trials },
        }
    }
}
