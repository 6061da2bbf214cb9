//! Ratios of the primes 2, 3, 5, 7, 11 and 13, and Barlow's distance.

const PRIMES: [u32; 6] = [2, 3, 5, 7, 11, 13];

/// Thousandths of a cent of each prime.
const PITCHES: [i32; 6] = [1_200_000, 1_901_955, 2_786_314, 3_368_826, 4_151_318, 4_440_528];

/// Barlow's weights.
const WEIGHTS: [u32; 6] = [30_030, 80_080, 192_192, 308_880, 546_000, 665_280];

/// The exponents of a ratio.
#[derive(Clone, Copy, Default)]
pub struct Ratio([i8; 6]);

impl Ratio {
    /// The ratio of two numbers, or the number of the refusal.
    pub fn new(numerator: u64, denominator: u64) -> Result<Ratio, u32> {
        if numerator == 0 || denominator == 0 {
            return Err(6);
        }
        let (Ok(numerator), Ok(denominator)) = (u32::try_from(numerator), u32::try_from(denominator)) else {
            return Err(7);
        };
        let (mut above, mut below) = (numerator, denominator);
        let mut exponents = [0; 6];
        for (exponent, prime) in exponents.iter_mut().zip(PRIMES) {
            *exponent = take_out(&mut above, prime) - take_out(&mut below, prime);
        }
        // primes above 13 cancel exactly if what is left is the same above and below
        if above == below {
            Ok(Ratio(exponents))
        } else {
            Err(8)
        }
    }

    /// The distance of two ratios by Barlow's measure.
    #[inline]
    pub fn distance(&self, other: &Ratio) -> u32 {
        (0..6).map(|place| WEIGHTS[place] * u32::from(self.0[place].abs_diff(other.0[place]))).sum()
    }

    /// Thousandths of a cent.
    pub fn pitch(&self) -> i32 {
        (0..6).map(|place| PITCHES[place] * i32::from(self.0[place])).sum()
    }

    /// Numerator and denominator in lowest terms.
    pub fn parts(&self) -> (u32, u32) {
        let (mut above, mut below) = (1, 1);
        for (exponent, prime) in self.0.into_iter().zip(PRIMES) {
            let power = prime.pow(u32::from(exponent.unsigned_abs()));
            if exponent > 0 {
                above *= power;
            } else {
                below *= power;
            }
        }
        (above, below)
    }
}

/// Takes a prime out of a number as often as it divides it, and tells how often.
fn take_out(number: &mut u32, prime: u32) -> i8 {
    let mut times = 0;
    while *number % prime == 0 {
        *number /= prime;
        times += 1;
    }
    times
}
