//! What is asked in a settling, and what may come of it.

use crate::draft::Draft;
use crate::measure::Measure;
use crate::ratio::Exponents;

pub const LARGEST_ALLOWANCE: u64 = 1_000_000_000;

/// A draft under a measure: how many candidates each tone has, the distances between them, and the bounds.
pub struct Posed {
    counts: Vec<usize>,
    first_rows: Vec<usize>,
    rows: usize,
    distances: Vec<u64>,
    bounds: Vec<Vec<u64>>,
}

impl Posed {
    pub fn new(draft: &Draft, measure: Measure) -> Posed {
        let counts: Vec<usize> = draft.tones.iter().map(|tone| tone.candidates.len()).collect();
        let candidates: Vec<Exponents> =
            draft.tones.iter().flat_map(|tone| &tone.candidates).map(|ratio| ratio.exponents()).collect();
        Posed {
            first_rows: sums_before(&counts),
            rows: candidates.len(),
            distances: table(&candidates, measure),
            bounds: bounds(draft),
            counts,
        }
    }

    pub fn tones(&self) -> usize {
        self.counts.len()
    }

    /// How many candidates this tone has.
    pub fn candidates(&self, tone: usize) -> usize {
        self.counts[tone]
    }

    /// The distance between a candidate of one tone and a candidate of another.
    pub fn distance(&self, tone: usize, candidate: usize, other: usize, others: usize) -> u64 {
        self.distances[(self.first_rows[tone] + candidate) * self.rows + self.first_rows[other] + others]
    }

    pub fn bound(&self, tone: usize, other: usize) -> u64 {
        self.bounds[tone][other]
    }
}

/// For each number the sum of those before it.
fn sums_before(numbers: &[usize]) -> Vec<usize> {
    (0..numbers.len()).map(|place| numbers[..place].iter().sum()).collect()
}

fn table(candidates: &[Exponents], measure: Measure) -> Vec<u64> {
    let mut distances = Vec::with_capacity(candidates.len() * candidates.len());
    for x in candidates {
        for y in candidates {
            distances.push(measure.distance(x, y));
        }
    }
    distances
}

fn bounds(draft: &Draft) -> Vec<Vec<u64>> {
    let tones = draft.tones.len();
    (0..tones).map(|tone| (0..tones).map(|other| draft.bound(tone, other)).collect()).collect()
}

#[derive(Clone, Debug, PartialEq)]
pub enum Outcome<Value> {
    Scale { choice: Vec<usize>, cost: Value, trials: u64 },
    NoScale { trials: u64 },
    Spent,
}
