//! The words of a line, each with its column, and the values that they write.

use super::refusal::Refusal;

/// A command and three words.
const MOST_WORDS: usize = 4;

#[derive(Clone, Copy)]
pub struct Word<'a> {
    bytes: &'a [u8],
    pub column: usize,
}

pub struct Words<'a> {
    words: [Word<'a>; MOST_WORDS],
    /// How many there are; of more than fit, one more than fit.
    count: usize,
}

impl<'a> Words<'a> {
    pub fn of(line: &'a [u8]) -> Words<'a> {
        let mut words = [Word { bytes: &[], column: 0 }; MOST_WORDS];
        let mut count = 0;
        let mut column = 1;
        for bytes in line.split(|&byte| byte == b' ') {
            if count == MOST_WORDS {
                count += 1;
                break;
            }
            words[count] = Word { bytes, column };
            count += 1;
            column += bytes.len() + 1;
        }
        Words { words, count }
    }

    pub fn command(&self) -> &'a [u8] {
        self.words[0].bytes
    }

    /// The words behind the command, of which there must be so many, none of them empty.
    pub fn behind<const N: usize>(&self) -> Result<[Word<'a>; N], Refusal> {
        let wrong = Err(Refusal { number: 4, column: 1 });
        if self.count != N + 1 {
            return wrong;
        }
        let behind = std::array::from_fn(|place| self.words[place + 1]);
        if behind.iter().any(|word: &Word| word.bytes.is_empty()) {
            return wrong;
        }
        Ok(behind)
    }
}

impl Word<'_> {
    pub fn number(self) -> Result<u64, Refusal> {
        self.formed(digits(self.bytes, 10))
    }

    pub fn parts(self) -> Result<(u64, u64), Refusal> {
        self.formed(parts(self.bytes))
    }

    /// Thousandths of a cent.
    pub fn cents(self) -> Result<i32, Refusal> {
        self.formed(cents(self.bytes))
    }

    fn formed<T>(self, value: Option<T>) -> Result<T, Refusal> {
        value.ok_or(Refusal { number: 5, column: self.column })
    }
}

/// The value of a word that is digits, at least one and at most so many.
fn digits(word: &[u8], most: usize) -> Option<u64> {
    if word.is_empty() || word.len() > most {
        return None;
    }
    word.iter().try_fold(0, |value, byte| byte.is_ascii_digit().then(|| value * 10 + u64::from(byte - b'0')))
}

fn parts(word: &[u8]) -> Option<(u64, u64)> {
    let slash = word.iter().position(|&byte| byte == b'/')?;
    Some((digits(&word[..slash], 10)?, digits(&word[slash + 1..], 10)?))
}

fn cents(word: &[u8]) -> Option<i32> {
    let (sign, size) = match word {
        [b'-', size @ ..] => (-1, size),
        _ => (1, word),
    };
    let (whole, [b'.', decimals @ ..]) = size.split_last_chunk::<4>()? else {
        return None;
    };
    let thousandths = digits(whole, 5)? * 1000 + digits(decimals, 3)?;
    Some(sign * thousandths as i32)
}
