//! The wide rival: a table as the tuned one has, but all candidates of the next tone are tried at once.
//!
//! The table has a row for each tone and each candidate of a tone before it: the distances from that candidate to all
//! candidates of the tone, side by side. From a live start the costs with all candidates of the next tone are added up at
//! once, row by row, which the compiler turns into vector instructions. A distance over its bound stands in the table as an
//! amount that is over the cost of every scale, so that bounds need no test of their own.

mod common;

use common::draft::{Draft, Tone, MOST_CANDIDATES, MOST_TONES};
use common::ratio::Ratio;
use common::settling::{Choice, Outcome};
use common::talk;
use std::ops::AddAssign;
use std::process::ExitCode;

fn main() -> ExitCode {
    talk::converse(settle)
}

/// Settles with rows as wide and amounts as large as the draft needs.
fn settle(draft: &Draft, allowance: u64) -> Outcome {
    let distances = Distances::of(draft);
    let narrow = draft.tones.iter().all(|tone| tone.candidates.len() <= 4);
    let small = distances.largest_sum <= u64::from(u32::MAX);
    match (small, narrow) {
        (true, true) => Search::<u32, 4>::settle(draft, &distances, allowance),
        (true, false) => Search::<u32, 8>::settle(draft, &distances, allowance),
        (false, true) => Search::<u64, 4>::settle(draft, &distances, allowance),
        (false, false) => Search::<u64, 8>::settle(draft, &distances, allowance),
    }
}

/// Where a distance is over its bound.
const FAR: u32 = u32::MAX;

/// The rows of the table, as distances.
struct Distances {
    rows: Vec<[u32; MOST_CANDIDATES]>,
    /// More than any scale costs.
    endless: u64,
    /// The most that a sum can come to if `endless` stands for each distance over its bound.
    largest_sum: u64,
}

impl Distances {
    fn of(draft: &Draft) -> Distances {
        let mut rows = Vec::new();
        let mut largest_cost = 0;
        let mut most_far = 0;
        for (place, tone) in draft.tones.iter().enumerate() {
            let mut far_pairs = 0;
            for (earlier, &bound) in draft.tones.iter().zip(draft.bounds_before(place)) {
                let first = rows.len();
                rows.extend(earlier.candidates.iter().map(|from| row(from, tone, bound)));
                let pair = rows[first..].iter().flatten();
                largest_cost += u64::from(pair.clone().filter(|&&each| each != FAR).max().copied().unwrap_or(0));
                far_pairs += u64::from(pair.clone().any(|&each| each == FAR));
            }
            most_far = most_far.max(far_pairs);
        }
        let endless = largest_cost + 1;
        Distances { rows, endless, largest_sum: largest_cost + most_far * endless }
    }
}

/// The distances from a ratio to the candidates of a tone; 0 where there is none.
fn row(from: &Ratio, tone: &Tone, bound: u32) -> [u32; MOST_CANDIDATES] {
    let mut row = [0; MOST_CANDIDATES];
    for (entry, ratio) in row.iter_mut().zip(&tone.candidates) {
        let apart = from.distance(ratio);
        *entry = if apart > bound { FAR } else { apart };
    }
    row
}

/// A number for costs, of 32 or 64 bits.
trait Amount: Copy + Default + Ord + AddAssign + Into<u64> {
    fn of(number: u64) -> Self;
}

impl Amount for u32 {
    fn of(number: u64) -> u32 {
        number as u32
    }
}

impl Amount for u64 {
    fn of(number: u64) -> u64 {
        number
    }
}

/// All candidates, those of the first tone first, are numbered in a byte.
const MOST_ROWS: usize = MOST_TONES * MOST_CANDIDATES;

struct Search<A, const WIDTH: usize> {
    /// For each tone the rows of all candidates before it; at the end rows without meaning, so that a byte finds a row from
    /// any place on, and no place need be tested.
    table: Vec<[A; WIDTH]>,
    /// Where the rows of each tone begin.
    first_rows: [usize; MOST_TONES],
    /// How many candidates each tone has, and how many come before its first.
    counts: [u8; MOST_TONES],
    before: [u8; MOST_TONES],
    last: usize,
    allowance: u64,
    trials: u64,
    /// The candidates that are laid, by their numbers among all candidates.
    laid: [u8; MOST_TONES],
    best: A,
    best_laid: [u8; MOST_TONES],
}

struct Spent;

impl<A: Amount, const WIDTH: usize> Search<A, WIDTH> {
    fn settle(draft: &Draft, distances: &Distances, allowance: u64) -> Outcome {
        let endless = A::of(distances.endless);
        let mut search = Search::<A, WIDTH>::new(draft, distances, endless, allowance);
        match search.descend(0, A::default()) {
            Err(Spent) => Outcome::Spent,
            Ok(()) if search.best == endless => Outcome::NoScale,
            Ok(()) => Outcome::Scale { cost: search.best.into(), trials: search.trials, choice: search.choice() },
        }
    }

    fn new(draft: &Draft, distances: &Distances, endless: A, allowance: u64) -> Self {
        let mut table = Vec::with_capacity(distances.rows.len() + MOST_ROWS);
        table.extend(distances.rows.iter().map(|row| entries(row, endless)));
        table.resize(distances.rows.len() + MOST_ROWS, [A::default(); WIDTH]);
        let (mut first_rows, mut counts, mut before) = ([0; MOST_TONES], [0; MOST_TONES], [0; MOST_TONES]);
        let (mut rows, mut candidates) = (0, 0);
        for (place, tone) in draft.tones.iter().enumerate() {
            (first_rows[place], counts[place], before[place]) = (rows, tone.candidates.len() as u8, candidates as u8);
            rows += candidates;
            candidates += tone.candidates.len();
        }
        Search {
            table,
            first_rows,
            counts,
            before,
            last: draft.tones.len() - 1,
            allowance,
            trials: 0,
            laid: [0; MOST_TONES],
            best: endless,
            best_laid: [0; MOST_TONES],
        }
    }

    /// Searches all that extends the start of the first tones, which is live and has this cost.
    fn descend(&mut self, tone: usize, cost: A) -> Result<(), Spent> {
        // each candidate of the next tone is a trial, whatever is found between them
        self.trials += u64::from(self.counts[tone]);
        if self.trials > self.allowance {
            return Err(Spent);
        }
        let costs = self.costs(tone, cost);
        // a slice of a length that the compiler does not know, or it would take the costs apart and add them one by one
        for (number, &cost) in costs[..usize::from(self.counts[tone])].iter().enumerate() {
            if cost < self.best {
                self.laid[tone] = self.before[tone] + number as u8;
                if tone == self.last {
                    self.best = cost;
                    self.best_laid = self.laid;
                } else {
                    self.descend(tone + 1, cost)?;
                }
            }
        }
        Ok(())
    }

    /// What the start costs with each candidate of the tone after it.
    #[inline(always)]
    fn costs(&self, tone: usize, cost: A) -> [A; WIDTH] {
        let mut costs = [cost; WIDTH];
        if let Some(rows) = self.table[self.first_rows[tone]..].first_chunk::<MOST_ROWS>() {
            for &laid in &self.laid[..tone] {
                for (sum, &entry) in costs.iter_mut().zip(&rows[usize::from(laid)]) {
                    *sum += entry;
                }
            }
        }
        costs
    }

    /// The best choice, by the numbers of each tone's own candidates.
    fn choice(&self) -> Choice {
        std::array::from_fn(|tone| self.best_laid[tone] - self.before[tone].min(self.best_laid[tone]))
    }
}

/// A row as amounts, with `endless` for what is far.
fn entries<A: Amount, const WIDTH: usize>(row: &[u32; MOST_CANDIDATES], endless: A) -> [A; WIDTH] {
    std::array::from_fn(|place| if row[place] == FAR { endless } else { A::of(u64::from(row[place])) })
}
