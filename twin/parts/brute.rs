//! Settling by the definitions alone: all choices and all starts are listed, and each word of docs/settling.md is tried as
//! it stands there. For small drafts only.

use crate::costing::Costing;
use crate::settling::{Outcome, Posed};

/// The most starts, full choices among them, that are listed.
const MOST_STARTS: usize = 6000;

/// A full choice that keeps the bounds, with its cost.
struct Kept<Value> {
    choice: Vec<usize>,
    cost: Value,
}

/// What comes of the settling, or nothing if there are too many starts to list.
pub fn settle<C: Costing>(posed: &Posed, allowance: u64) -> Option<Outcome<C::Value>> {
    if !is_small(posed) {
        return None;
    }
    let kept = kept_choices::<C>(posed);
    let trials = trials::<C>(posed, &kept);
    if trials > allowance {
        return Some(Outcome::Spent);
    }
    Some(match best::<C>(&kept) {
        None => Outcome::NoScale { trials },
        Some(best) => Outcome::Scale { choice: best.choice.clone(), cost: best.cost, trials },
    })
}

/// Whether there are few enough starts to list them all.
fn is_small(posed: &Posed) -> bool {
    let mut starts = 1;
    let mut all = 1;
    for tone in 0..posed.tones() {
        starts *= posed.candidates(tone);
        all += starts;
        if all > MOST_STARTS {
            return false;
        }
    }
    true
}

/// All choices for the first so many tones, in list order.
fn starts(posed: &Posed, length: usize) -> Vec<Vec<usize>> {
    let mut starts = vec![Vec::new()];
    for tone in 0..length {
        let mut longer = Vec::new();
        for start in &starts {
            for candidate in 0..posed.candidates(tone) {
                longer.push([start.as_slice(), &[candidate]].concat());
            }
        }
        starts = longer;
    }
    starts
}

/// The pairs of tones among the first so many, each once.
fn pairs(length: usize) -> Vec<(usize, usize)> {
    let mut pairs = Vec::new();
    for j in 0..length {
        for i in 0..j {
            pairs.push((i, j));
        }
    }
    pairs
}

fn keeps_bounds(posed: &Posed, start: &[usize]) -> bool {
    pairs(start.len()).iter().all(|&(i, j)| posed.distance(i, start[i], j, start[j]) <= posed.bound(i, j))
}

fn cost<C: Costing>(posed: &Posed, start: &[usize]) -> C::Value {
    pairs(start.len())
        .iter()
        .map(|&(i, j)| C::of(posed.distance(i, start[i], j, start[j])))
        .fold(C::nil(), |joined, value| C::joined(joined, value))
}

fn kept_choices<C: Costing>(posed: &Posed) -> Vec<Kept<C::Value>> {
    starts(posed, posed.tones())
        .into_iter()
        .filter(|choice| keeps_bounds(posed, choice))
        .map(|choice| Kept { cost: cost::<C>(posed, &choice), choice })
        .collect()
}

fn comes_before(a: &[usize], b: &[usize]) -> bool {
    match a.iter().zip(b).find(|(x, y)| x != y) {
        None => false,
        Some((x, y)) => x < y,
    }
}

fn is_live<C: Costing>(posed: &Posed, kept: &[Kept<C::Value>], start: &[usize]) -> bool {
    let own = cost::<C>(posed, start);
    keeps_bounds(posed, start)
        && kept.iter().all(|full| !comes_before(&full.choice[..start.len()], start) || C::less(own, full.cost))
}

fn trials<C: Costing>(posed: &Posed, kept: &[Kept<C::Value>]) -> u64 {
    let mut trials = 0;
    for length in 0..posed.tones() {
        let live = starts(posed, length).iter().filter(|start| is_live::<C>(posed, kept, start)).count();
        trials += (live * posed.candidates(length)) as u64;
    }
    trials
}

fn is_best<C: Costing>(kept: &[Kept<C::Value>], one: &Kept<C::Value>) -> bool {
    kept.iter().all(|other| {
        let same = other.choice == one.choice;
        C::no_more(one.cost, other.cost) && (same || one.cost != other.cost || comes_before(&one.choice, &other.choice))
    })
}

fn best<C: Costing>(kept: &[Kept<C::Value>]) -> Option<&Kept<C::Value>> {
    kept.iter().find(|one| is_best::<C>(kept, one))
}

/// The costs of all choices that keep the bounds, in list order.
pub fn costs<C: Costing>(posed: &Posed) -> Vec<C::Value> {
    kept_choices::<C>(posed).into_iter().map(|kept| kept.cost).collect()
}
