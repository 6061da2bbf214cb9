//! Measures: the distance between two ratios, given by their exponents.

use crate::ratio::{pitch_of, Exponents};

const BARLOW: [u64; 6] = [30_030, 80_080, 192_192, 308_880, 546_000, 665_280];
const EULER: [u64; 6] = [1, 2, 4, 6, 10, 12];

#[derive(Clone, Copy, Debug, PartialEq, Eq)]
pub enum Measure {
    Barlow,
    Euler,
    Pitch,
    BlindBarlow,
    BlindPitch,
}

pub const MEASURES: [(&str, Measure); 5] = [
    ("barlow", Measure::Barlow),
    ("euler", Measure::Euler),
    ("pitch", Measure::Pitch),
    ("blind-barlow", Measure::BlindBarlow),
    ("blind-pitch", Measure::BlindPitch),
];

impl Measure {
    pub fn distance(self, x: &Exponents, y: &Exponents) -> u64 {
        match self {
            Measure::Barlow => weighted(&BARLOW, x, y),
            Measure::Euler => weighted(&EULER, x, y),
            Measure::Pitch => pitch_gap(x, y),
            Measure::BlindBarlow => Measure::Barlow.distance(&without_octaves(x), &without_octaves(y)),
            Measure::BlindPitch => Measure::Pitch.distance(&without_octaves(x), &without_octaves(y)),
        }
    }
}

fn weighted(weights: &[u64; 6], x: &Exponents, y: &Exponents) -> u64 {
    (0..6).map(|place| weights[place] * x[place].abs_diff(y[place])).sum()
}

fn pitch_gap(x: &Exponents, y: &Exponents) -> u64 {
    pitch_of(x).abs_diff(pitch_of(y))
}

fn without_octaves(exponents: &Exponents) -> Exponents {
    let mut rest = *exponents;
    rest[0] = 0;
    rest
}
