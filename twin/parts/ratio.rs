//! Ratios of the primes 2, 3, 5, 7, 11 and 13.

pub const PRIMES: [u64; 6] = [2, 3, 5, 7, 11, 13];
pub const LARGEST_PART: u64 = 4_294_967_295;

/// Thousandths of a cent of each prime.
const PITCHES: [i64; 6] = [1_200_000, 1_901_955, 2_786_314, 3_368_826, 4_151_318, 4_440_528];

pub type Exponents = [i64; 6];

/// A fraction in lowest terms that holds no other primes.
#[derive(Clone, Copy, Debug, PartialEq, Eq)]
pub struct Ratio {
    pub numerator: u64,
    pub denominator: u64,
}

impl Ratio {
    /// The ratio of two numbers, or the number of the refusal.
    pub fn enter(numerator: u64, denominator: u64) -> Result<Ratio, u32> {
        if numerator == 0 || denominator == 0 {
            return Err(6);
        }
        if numerator > LARGEST_PART || denominator > LARGEST_PART {
            return Err(7);
        }
        let common = greatest_common_factor(numerator, denominator);
        let ratio = Ratio { numerator: numerator / common, denominator: denominator / common };
        if has_larger_prime(ratio.numerator) || has_larger_prime(ratio.denominator) {
            return Err(8);
        }
        Ok(ratio)
    }

    pub fn exponents(self) -> Exponents {
        let mut exponents = [0; 6];
        for (place, &prime) in PRIMES.iter().enumerate() {
            exponents[place] = multiplicity(self.numerator, prime) - multiplicity(self.denominator, prime);
        }
        exponents
    }

    pub fn pitch(self) -> i64 {
        pitch_of(&self.exponents())
    }

    pub fn text(self) -> String {
        format!("{}/{}", self.numerator, self.denominator)
    }
}

/// The pitch of the ratio with these exponents, in thousandths of a cent.
pub fn pitch_of(exponents: &Exponents) -> i64 {
    exponents.iter().zip(PITCHES).map(|(exponent, pitch)| exponent * pitch).sum()
}

fn greatest_common_factor(a: u64, b: u64) -> u64 {
    if b == 0 {
        a
    } else {
        greatest_common_factor(b, a % b)
    }
}

/// How often the prime divides the number, which is not 0.
fn multiplicity(mut number: u64, prime: u64) -> i64 {
    let mut times = 0;
    while number % prime == 0 {
        number /= prime;
        times += 1;
    }
    times
}

fn has_larger_prime(mut number: u64) -> bool {
    for prime in PRIMES {
        while number % prime == 0 {
            number /= prime;
        }
    }
    number != 1
}
