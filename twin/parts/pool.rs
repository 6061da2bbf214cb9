//! Ratios to choose from: those near a pitch, very large ones, and pairs of numbers at the limits of the rules.

use crate::measure::Measure;
use crate::random::Random;
use crate::ratio::{pitch_of, Exponents, Ratio, LARGEST_PART, PRIMES};
use std::sync::OnceLock;

const OCTAVE: i64 = 1_200_000;

/// Primes that no ratio may hold.
const LARGER_PRIMES: [u64; 9] = [17, 19, 23, 29, 97, 257, 65_537, 1_000_003, 4_294_967_291];

/// Parts at the limits: of the rules, of powers of the primes, and of numbers of 32 bits.
const EDGE_PARTS: [u64; 20] = [
    0,
    0,
    0,
    1,
    2,
    2_147_483_648,
    3_486_784_401,
    1_220_703_125,
    1_977_326_743,
    2_357_947_691,
    815_730_721,
    4_293_918_720,
    4_294_967_293,
    4_294_967_294,
    4_294_967_295,
    4_294_967_296,
    4_294_967_297,
    8_589_934_592,
    9_999_999_998,
    9_999_999_999,
];

struct Near {
    pitch: i64,
    exponents: Exponents,
}

/// Ratios within one octave above 1/1, by pitch.
fn within_octave() -> &'static [Near] {
    static POOL: OnceLock<Vec<Near>> = OnceLock::new();
    POOL.get_or_init(|| {
        let mut pool = Vec::new();
        for fives in -2..=2 {
            for threes in -5..=5 {
                for (sevens, elevens, thirteens) in rare_primes() {
                    pool.push(lowered([0, threes, fives, sevens, elevens, thirteens]));
                }
            }
        }
        pool.sort_by_key(|near| near.pitch);
        pool
    })
}

/// Exponents of 7, 11 and 13, of which at most one is not 0.
fn rare_primes() -> Vec<(i64, i64, i64)> {
    let mut all = vec![(0, 0, 0)];
    for exponent in [-1, 1] {
        all.extend([(exponent, 0, 0), (0, exponent, 0), (0, 0, exponent)]);
    }
    all
}

/// The ratio with these exponents, put by octaves between 0 and 1200 cents.
fn lowered(mut exponents: Exponents) -> Near {
    exponents[0] = -pitch_of(&exponents).div_euclid(OCTAVE);
    Near { pitch: pitch_of(&exponents), exponents }
}

/// A ratio at most so far from this pitch, if there is one. Simple ones are taken more often.
pub fn near(random: &mut Random, pitch: i64, width: i64) -> Option<Ratio> {
    let octaves = pitch.div_euclid(OCTAVE);
    let target = pitch.rem_euclid(OCTAVE);
    let pool = within_octave();
    let first = pool.partition_point(|near| near.pitch < target - width);
    let end = pool.partition_point(|near| near.pitch <= target + width);
    let found = &pool[first..end];
    if found.is_empty() {
        return None;
    }
    let mut exponents = simplest_of_some(random, found);
    exponents[0] += octaves;
    from_exponents(&exponents)
}

fn simplest_of_some(random: &mut Random, found: &[Near]) -> Exponents {
    let tries = 1 + random.below(4);
    (0..tries)
        .map(|_| random.pick(found).exponents)
        .min_by_key(|exponents| Measure::Barlow.distance(exponents, &[0; 6]))
        .unwrap_or([0; 6])
}

fn from_exponents(exponents: &Exponents) -> Option<Ratio> {
    let mut parts = [1_u64; 2];
    for (prime, &exponent) in PRIMES.iter().zip(exponents) {
        let power = prime.checked_pow(exponent.unsigned_abs() as u32)?;
        let part = &mut parts[usize::from(exponent < 0)];
        *part = part.checked_mul(power)?;
    }
    Ratio::enter(parts[0], parts[1]).ok()
}

/// A ratio whose parts may be as large as they can be.
pub fn large(random: &mut Random) -> (u64, u64) {
    let kinds = 1 + random.place(PRIMES.len());
    let mut primes = PRIMES;
    random.shuffle(&mut primes);
    let split = random.place(kinds + 1);
    (product(random, &primes[..split]), product(random, &primes[split..kinds]))
}

/// A large number that holds only these primes.
fn product(random: &mut Random, primes: &[u64]) -> u64 {
    let mut number = 1;
    if primes.is_empty() {
        return number;
    }
    loop {
        let prime = *random.pick(primes);
        if number * prime > LARGEST_PART || random.per_mille(20) {
            return number;
        }
        number *= prime;
    }
}

/// Two numbers that may name no ratio.
pub fn doubtful(random: &mut Random) -> (u64, u64) {
    let (numerator, denominator) = *random.pick(&[(1, 1), (3, 2), (5, 4), (16, 9), (7, 4), (11, 8), (26, 25)]);
    let (larger, other) = (*random.pick(&LARGER_PRIMES), *random.pick(&LARGER_PRIMES));
    match random.below(8) {
        0 => (numerator * larger, denominator * larger),
        1 => (numerator * larger, denominator * other),
        2 => (numerator * larger, denominator),
        3 => (numerator, denominator * larger),
        4 => (random.below(10_000_000_000), random.below(10_000_000_000)),
        5 => (*random.pick(&EDGE_PARTS), denominator),
        6 => (numerator, *random.pick(&EDGE_PARTS)),
        _ => (*random.pick(&EDGE_PARTS), *random.pick(&EDGE_PARTS)),
    }
}

/// A ratio of the largest power of one of the rarest primes over that of another.
pub fn extreme(random: &mut Random) -> (u64, u64) {
    let (elevens, thirteens) = (11_u64.pow(9), 13_u64.pow(8));
    *random.pick(&[
        (elevens, thirteens),
        (thirteens, elevens),
        (elevens, thirteens),
        (thirteens, elevens),
        (elevens, 1),
        (1, 1 << 31),
    ])
}
