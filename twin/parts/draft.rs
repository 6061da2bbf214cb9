//! The draft: tones, their candidates, and a bound for each pair of tones.

use crate::ratio::Ratio;

pub const MOST_TONES: usize = 32;
pub const MOST_CANDIDATES: usize = 8;
pub const LARGEST_BOUND: u64 = 1_073_741_824;
pub const LARGEST_PITCH: i64 = 12_000_000;

#[derive(Clone)]
pub struct Tone {
    pub pitch: i64,
    pub candidates: Vec<Ratio>,
}

#[derive(Clone)]
pub struct Draft {
    pub tones: Vec<Tone>,
    bounds: [[u64; MOST_TONES]; MOST_TONES],
}

impl Draft {
    pub fn new() -> Draft {
        Draft { tones: Vec::new(), bounds: [[LARGEST_BOUND; MOST_TONES]; MOST_TONES] }
    }

    pub fn add_tone(&mut self, pitch: i64) {
        self.tones.push(Tone { pitch, candidates: Vec::new() });
    }

    pub fn set_bound(&mut self, tone: usize, other: usize, bound: u64) {
        self.bounds[tone][other] = bound;
        self.bounds[other][tone] = bound;
    }

    pub fn set_level(&mut self, bound: u64) {
        self.bounds = [[bound; MOST_TONES]; MOST_TONES];
    }

    pub fn bound(&self, tone: usize, other: usize) -> u64 {
        self.bounds[tone][other]
    }
}

impl Default for Draft {
    fn default() -> Draft {
        Draft::new()
    }
}
