//! How a line is read: its command and the values of its words, or a refusal that lies in the line's shape (2 to 5).

use crate::costing::{Named, COSTINGS};
use crate::measure::{Measure, MEASURES};
use crate::refusal::Refusal;

pub const LONGEST_LINE: usize = 80;

/// Something read from a word, with the word's column.
#[derive(Clone, Copy, Debug, PartialEq, Eq)]
pub struct Placed<T> {
    pub value: T,
    pub column: usize,
}

#[derive(Clone, Copy, Debug, PartialEq, Eq)]
pub enum Command {
    Tone { pitch: Placed<i64> },
    Try { tone: Placed<u64>, parts: Placed<(u64, u64)> },
    Strike { tone: Placed<u64>, candidate: Placed<u64> },
    Bound { tone: Placed<u64>, other: Placed<u64>, bound: Placed<u64> },
    Level { bound: Placed<u64> },
    Settle { allowance: Placed<u64> },
    Measure(Measure),
    Costing(Named),
}

/// Reads a line without its byte 10. The commands `measure` and `costing` are commands only where extras are allowed.
pub fn read(line: &[u8], extras: bool) -> Result<Command, Refusal> {
    if line.len() > LONGEST_LINE {
        return Err(Refusal::new(2, LONGEST_LINE + 1));
    }
    let mut words = Words::of(line);
    match words.command() {
        b"tone" => {
            words.must_be(1)?;
            Ok(Command::Tone { pitch: words.next(cents)? })
        }
        b"try" => {
            words.must_be(2)?;
            Ok(Command::Try { tone: words.next(number)?, parts: words.next(parts)? })
        }
        b"strike" => {
            words.must_be(2)?;
            Ok(Command::Strike { tone: words.next(number)?, candidate: words.next(number)? })
        }
        b"bound" => {
            words.must_be(3)?;
            Ok(Command::Bound { tone: words.next(number)?, other: words.next(number)?, bound: words.next(number)? })
        }
        b"level" => {
            words.must_be(1)?;
            Ok(Command::Level { bound: words.next(number)? })
        }
        b"settle" => {
            words.must_be(1)?;
            Ok(Command::Settle { allowance: words.next(number)? })
        }
        b"measure" if extras => {
            words.must_be(1)?;
            Ok(Command::Measure(words.next(|word| named(&MEASURES, word))?.value))
        }
        b"costing" if extras => {
            words.must_be(1)?;
            Ok(Command::Costing(words.next(|word| named(&COSTINGS, word))?.value))
        }
        _ => Err(Refusal::new(3, 1)),
    }
}

/// The pieces of a line between its spaces, the first of them the command.
struct Words<'a> {
    pieces: Vec<Placed<&'a [u8]>>,
    taken: usize,
}

impl<'a> Words<'a> {
    fn of(line: &'a [u8]) -> Words<'a> {
        let mut pieces = Vec::new();
        let mut column = 1;
        for value in line.split(|&byte| byte == b' ') {
            pieces.push(Placed { value, column });
            column += value.len() + 1;
        }
        Words { pieces, taken: 1 }
    }

    fn command(&self) -> &'a [u8] {
        self.pieces[0].value
    }

    /// After the command there must be exactly so many words, with single spaces and none at the end.
    fn must_be(&self, count: usize) -> Result<(), Refusal> {
        let well_spaced = self.pieces.iter().all(|piece| !piece.value.is_empty());
        if well_spaced && self.pieces.len() == count + 1 {
            Ok(())
        } else {
            Err(Refusal::new(4, 1))
        }
    }

    /// The value of the next word, if it has the form.
    fn next<T>(&mut self, form: impl Fn(&[u8]) -> Option<T>) -> Result<Placed<T>, Refusal> {
        let Placed { value: word, column } = self.pieces[self.taken];
        self.taken += 1;
        match form(word) {
            Some(value) => Ok(Placed { value, column }),
            None => Err(Refusal::new(5, column)),
        }
    }
}

/// The value of a word that is digits and nothing else, from the fewest to the most of them.
fn digits(word: &[u8], fewest: usize, most: usize) -> Option<u64> {
    let is_number = word.iter().all(u8::is_ascii_digit) && fewest <= word.len() && word.len() <= most;
    is_number.then(|| word.iter().fold(0, |value, digit| value * 10 + u64::from(digit - b'0')))
}

fn number(word: &[u8]) -> Option<u64> {
    digits(word, 1, 10)
}

/// The two sides of the first such byte.
fn halves(word: &[u8], byte: u8) -> Option<(&[u8], &[u8])> {
    let place = word.iter().position(|&each| each == byte)?;
    Some((&word[..place], &word[place + 1..]))
}

fn parts(word: &[u8]) -> Option<(u64, u64)> {
    let (numerator, denominator) = halves(word, b'/')?;
    Some((number(numerator)?, number(denominator)?))
}

/// Thousandths of a cent.
fn cents(word: &[u8]) -> Option<i64> {
    let (sign, size) = match word.strip_prefix(b"-") {
        Some(size) => (-1, size),
        None => (1, word),
    };
    let (whole, decimals) = halves(size, b'.')?;
    let thousandths = digits(whole, 1, 5)? * 1000 + digits(decimals, 3, 3)?;
    Some(sign * thousandths as i64)
}

fn named<T: Copy>(names: &[(&str, T)], word: &[u8]) -> Option<T> {
    names.iter().find(|(name, _)| name.as_bytes() == word).map(|&(_, value)| value)
}
