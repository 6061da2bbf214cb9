//! A session: a draft that hears lines and answers each.

use super::draft::{Draft, LARGEST_BOUND, LARGEST_PITCH, MOST_CANDIDATES, MOST_TONES};
use super::ratio::Ratio;
use super::refusal::{write_number, Refusal};
use super::settling::{Choice, Outcome, LARGEST_ALLOWANCE};
use super::words::{Word, Words};

pub const LONGEST_LINE: usize = 80;

pub struct Session<S> {
    draft: Draft,
    settle: S,
}

impl<S: FnMut(&Draft, u64) -> Outcome> Session<S> {
    pub fn new(settle: S) -> Session<S> {
        Session { draft: Draft::new(), settle }
    }

    /// Writes the answer to a line without its byte 10.
    pub fn hear(&mut self, line: &[u8], out: &mut Vec<u8>) {
        if let Err(refusal) = self.obey(line, out) {
            refusal.write(out);
        }
    }

    fn obey(&mut self, line: &[u8], out: &mut Vec<u8>) -> Result<(), Refusal> {
        if line.len() > LONGEST_LINE {
            return Err(Refusal { number: 2, column: LONGEST_LINE + 1 });
        }
        let words = Words::of(line);
        match words.command() {
            b"tone" => self.tone(words.behind()?)?,
            b"try" => self.try_ratio(words.behind()?)?,
            b"strike" => self.strike(words.behind()?)?,
            b"bound" => self.bound(words.behind()?)?,
            b"level" => self.level(words.behind()?)?,
            b"settle" => return self.settle(words.behind()?, out),
            _ => return Err(Refusal { number: 3, column: 1 }),
        }
        out.extend_from_slice(b"ok\n");
        Ok(())
    }

    fn tone(&mut self, [word]: [Word; 1]) -> Result<(), Refusal> {
        let pitch = word.cents()?;
        if pitch.abs() > LARGEST_PITCH {
            return Err(Refusal { number: 9, column: word.column });
        }
        if self.draft.tones.len() == MOST_TONES {
            return Err(Refusal { number: 22, column: 1 });
        }
        self.draft.add_tone(pitch);
        Ok(())
    }

    fn try_ratio(&mut self, [tone, ratio]: [Word; 2]) -> Result<(), Refusal> {
        let number = tone.number()?;
        let (numerator, denominator) = ratio.parts()?;
        let tried = Ratio::new(numerator, denominator).map_err(|number| Refusal { number, column: ratio.column })?;
        let place = self.place(number, tone)?;
        let candidates = &mut self.draft.tones[place].candidates;
        if candidates.len() == MOST_CANDIDATES {
            return Err(Refusal { number: 23, column: tone.column });
        }
        candidates.push(tried);
        Ok(())
    }

    fn strike(&mut self, [tone, candidate]: [Word; 2]) -> Result<(), Refusal> {
        let (number, struck) = (tone.number()?, candidate.number()?);
        let place = self.place(number, tone)?;
        let candidates = &mut self.draft.tones[place].candidates;
        if struck >= candidates.len() as u64 {
            return Err(Refusal { number: 21, column: candidate.column });
        }
        candidates.remove(struck as usize);
        Ok(())
    }

    fn bound(&mut self, [tone, other, bound]: [Word; 3]) -> Result<(), Refusal> {
        let (number, others) = (tone.number()?, other.number()?);
        let most = limited(bound, LARGEST_BOUND)?;
        if number == others {
            return Err(Refusal { number: 10, column: other.column });
        }
        let (place, place_of_other) = (self.place(number, tone)?, self.place(others, other)?);
        self.draft.set_bound(place, place_of_other, most as u32);
        Ok(())
    }

    fn level(&mut self, [bound]: [Word; 1]) -> Result<(), Refusal> {
        self.draft.set_level(limited(bound, LARGEST_BOUND)? as u32);
        Ok(())
    }

    fn settle(&mut self, [allowance]: [Word; 1], out: &mut Vec<u8>) -> Result<(), Refusal> {
        let allowance = limited(allowance, LARGEST_ALLOWANCE)?;
        if self.draft.tones.is_empty() {
            return Err(Refusal { number: 24, column: 1 });
        }
        match (self.settle)(&self.draft, allowance) {
            Outcome::Spent => Err(Refusal { number: 25, column: 1 }),
            Outcome::NoScale => Err(Refusal { number: 26, column: 1 }),
            Outcome::Scale { cost, trials, choice } => {
                self.write_scale(cost, trials, &choice, out);
                Ok(())
            }
        }
    }

    fn write_scale(&self, cost: u64, trials: u64, choice: &Choice, out: &mut Vec<u8>) {
        out.extend_from_slice(b"scale ");
        write_number(cost, out);
        out.push(b' ');
        write_number(trials, out);
        out.push(b'\n');
        for (tone, &number) in self.draft.tones.iter().zip(choice) {
            let ratio = tone.candidates[usize::from(number)];
            let (numerator, denominator) = ratio.parts();
            write_number(u64::from(numerator), out);
            out.push(b'/');
            write_number(u64::from(denominator), out);
            out.push(b' ');
            write_offset(ratio.pitch() - tone.pitch, out);
            out.push(b'\n');
        }
    }

    /// The place of the tone with this number, if it is there.
    fn place(&self, number: u64, word: Word) -> Result<usize, Refusal> {
        if number < self.draft.tones.len() as u64 {
            Ok(number as usize)
        } else {
            Err(Refusal { number: 20, column: word.column })
        }
    }
}

/// The number that a word writes, within its limit.
fn limited(word: Word, limit: u64) -> Result<u64, Refusal> {
    let number = word.number()?;
    if number > limit {
        return Err(Refusal { number: 9, column: word.column });
    }
    Ok(number)
}

/// Writes thousandths of a cent as cents with a sign and two decimals, the third dropped.
fn write_offset(thousandths: i32, out: &mut Vec<u8>) {
    let hundredths = thousandths / 10;
    let size = hundredths.unsigned_abs();
    out.push(if hundredths < 0 { b'-' } else { b'+' });
    write_number(u64::from(size / 100), out);
    out.extend_from_slice(&[b'.', b'0' + (size / 10 % 10) as u8, b'0' + (size % 10) as u8]);
}
