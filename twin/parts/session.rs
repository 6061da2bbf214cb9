//! A session: a draft that hears lines and answers each.

use crate::brute;
use crate::costing::{Costing, Named, Total, Worst, WorstThenTotal};
use crate::draft::{Draft, LARGEST_BOUND, LARGEST_PITCH, MOST_CANDIDATES, MOST_TONES};
use crate::measure::Measure;
use crate::ratio::Ratio;
use crate::reading::{read, Command, Placed};
use crate::refusal::Refusal;
use crate::search;
use crate::settling::{Outcome, Posed, LARGEST_ALLOWANCE};

/// How settlings are worked out.
#[derive(Clone, Copy, Debug, PartialEq, Eq)]
pub enum Method {
    Search,
    Brute,
}

/// By what a session settles, and whether its lines may change that.
#[derive(Clone, Copy, Debug)]
pub struct Manner {
    pub method: Method,
    pub measure: Measure,
    pub costing: Named,
    pub extras: bool,
}

impl Manner {
    /// The manner of the documented program.
    pub fn documented() -> Manner {
        Manner { method: Method::Search, measure: Measure::Barlow, costing: Named::Total, extras: false }
    }
}

/// The answer to a settling that brute force cannot work out. The documented program never gives it.
pub const TOO_LARGE: &str = "too large for brute force\n";

pub struct Session {
    pub draft: Draft,
    pub manner: Manner,
}

impl Session {
    pub fn new(manner: Manner) -> Session {
        Session { draft: Draft::new(), manner }
    }

    /// The answer to a line without its byte 10.
    pub fn hear(&mut self, line: &[u8]) -> String {
        match read(line, self.manner.extras).and_then(|command| self.obey(command)) {
            Ok(answer) => answer,
            Err(refusal) => refusal.text(),
        }
    }

    fn obey(&mut self, command: Command) -> Result<String, Refusal> {
        match command {
            Command::Tone { pitch } => self.tone(pitch)?,
            Command::Try { tone, parts } => self.try_ratio(tone, parts)?,
            Command::Strike { tone, candidate } => self.strike(tone, candidate)?,
            Command::Bound { tone, other, bound } => self.bound(tone, other, bound)?,
            Command::Level { bound } => self.level(bound)?,
            Command::Settle { allowance } => return self.settle(allowance),
            Command::Measure(measure) => self.manner.measure = measure,
            Command::Costing(costing) => self.manner.costing = costing,
        }
        Ok("ok\n".to_string())
    }

    fn tone(&mut self, pitch: Placed<i64>) -> Result<(), Refusal> {
        if pitch.value.abs() > LARGEST_PITCH {
            return Err(Refusal::new(9, pitch.column));
        }
        if self.draft.tones.len() == MOST_TONES {
            return Err(Refusal::new(22, 1));
        }
        self.draft.add_tone(pitch.value);
        Ok(())
    }

    fn try_ratio(&mut self, tone: Placed<u64>, parts: Placed<(u64, u64)>) -> Result<(), Refusal> {
        let (numerator, denominator) = parts.value;
        let ratio = Ratio::enter(numerator, denominator).map_err(|number| Refusal::new(number, parts.column))?;
        let place = self.place_of(tone)?;
        let candidates = &mut self.draft.tones[place].candidates;
        if candidates.len() == MOST_CANDIDATES {
            return Err(Refusal::new(23, tone.column));
        }
        candidates.push(ratio);
        Ok(())
    }

    fn strike(&mut self, tone: Placed<u64>, candidate: Placed<u64>) -> Result<(), Refusal> {
        let place = self.place_of(tone)?;
        let candidates = &mut self.draft.tones[place].candidates;
        if candidate.value >= candidates.len() as u64 {
            return Err(Refusal::new(21, candidate.column));
        }
        candidates.remove(candidate.value as usize);
        Ok(())
    }

    fn bound(&mut self, tone: Placed<u64>, other: Placed<u64>, bound: Placed<u64>) -> Result<(), Refusal> {
        limited(bound, LARGEST_BOUND)?;
        if tone.value == other.value {
            return Err(Refusal::new(10, other.column));
        }
        let place = self.place_of(tone)?;
        let others = self.place_of(other)?;
        self.draft.set_bound(place, others, bound.value);
        Ok(())
    }

    fn level(&mut self, bound: Placed<u64>) -> Result<(), Refusal> {
        limited(bound, LARGEST_BOUND)?;
        self.draft.set_level(bound.value);
        Ok(())
    }

    fn settle(&self, allowance: Placed<u64>) -> Result<String, Refusal> {
        limited(allowance, LARGEST_ALLOWANCE)?;
        if self.draft.tones.is_empty() {
            return Err(Refusal::new(24, 1));
        }
        match self.manner.costing {
            Named::Total => self.settle_by::<Total>(allowance.value),
            Named::Worst => self.settle_by::<Worst>(allowance.value),
            Named::WorstThenTotal => self.settle_by::<WorstThenTotal>(allowance.value),
        }
    }

    fn settle_by<C: Costing>(&self, allowance: u64) -> Result<String, Refusal> {
        let posed = Posed::new(&self.draft, self.manner.measure);
        let outcome = match self.manner.method {
            Method::Search => Some(search::settle::<C>(&posed, allowance)),
            Method::Brute => brute::settle::<C>(&posed, allowance),
        };
        match outcome {
            None => Ok(TOO_LARGE.to_string()),
            Some(Outcome::Spent) => Err(Refusal::new(25, 1)),
            Some(Outcome::NoScale { .. }) => Err(Refusal::new(26, 1)),
            Some(Outcome::Scale { choice, cost, trials }) => Ok(self.scale_text(&choice, &C::text(cost), trials)),
        }
    }

    fn scale_text(&self, choice: &[usize], cost: &str, trials: u64) -> String {
        let mut text = format!("scale {cost} {trials}\n");
        for (tone, &candidate) in self.draft.tones.iter().zip(choice) {
            let ratio = tone.candidates[candidate];
            text += &format!("{} {}\n", ratio.text(), offset_text(ratio.pitch() - tone.pitch));
        }
        text
    }

    /// The place of the tone with this number, if it is there.
    fn place_of(&self, tone: Placed<u64>) -> Result<usize, Refusal> {
        if tone.value < self.draft.tones.len() as u64 {
            Ok(tone.value as usize)
        } else {
            Err(Refusal::new(20, tone.column))
        }
    }
}

fn limited(number: Placed<u64>, limit: u64) -> Result<(), Refusal> {
    if number.value > limit {
        Err(Refusal::new(9, number.column))
    } else {
        Ok(())
    }
}

/// Thousandths of a cent as cents with a sign and two decimals, the third dropped.
fn offset_text(thousandths: i64) -> String {
    let hundredths = thousandths / 10;
    let sign = if hundredths < 0 { '-' } else { '+' };
    let size = hundredths.abs();
    format!("{sign}{}.{:02}", size / 100, size % 100)
}
