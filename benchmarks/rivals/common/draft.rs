//! The draft: tones, their candidates, and a bound for each pair of tones.

use super::ratio::Ratio;

pub const MOST_TONES: usize = 32;
pub const MOST_CANDIDATES: usize = 8;
pub const LARGEST_BOUND: u64 = 1_073_741_824;
pub const LARGEST_PITCH: i32 = 12_000_000;

const PAIRS: usize = MOST_TONES * (MOST_TONES - 1) / 2;

pub struct Tone {
    pub pitch: i32,
    pub candidates: Vec<Ratio>,
}

pub struct Draft {
    pub tones: Vec<Tone>,
    /// The bounds of each tone with those before it, tone after tone.
    bounds: [u32; PAIRS],
}

impl Draft {
    pub fn new() -> Draft {
        Draft { tones: Vec::new(), bounds: [LARGEST_BOUND as u32; PAIRS] }
    }

    pub fn add_tone(&mut self, pitch: i32) {
        self.tones.push(Tone { pitch, candidates: Vec::with_capacity(MOST_CANDIDATES) });
    }

    pub fn set_bound(&mut self, tone: usize, other: usize, bound: u32) {
        let (earlier, later) = if tone < other { (tone, other) } else { (other, tone) };
        self.bounds[first_pair(later) + earlier] = bound;
    }

    pub fn set_level(&mut self, bound: u32) {
        self.bounds.fill(bound);
    }

    /// The bounds of a tone with each tone before it.
    #[inline]
    pub fn bounds_before(&self, tone: usize) -> &[u32] {
        &self.bounds[first_pair(tone)..][..tone]
    }
}

/// Where the bounds of a tone with those before it begin.
fn first_pair(tone: usize) -> usize {
    tone * tone.saturating_sub(1) / 2
}
