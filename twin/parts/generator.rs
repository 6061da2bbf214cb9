//! Random sessions. The session with a number is made from the seed and that number, and from nothing else.

use crate::costing::Total;
use crate::damage::damaged;
use crate::draft::{LARGEST_BOUND, MOST_TONES};
use crate::measure::Measure;
use crate::pool;
use crate::random::Random;
use crate::ratio::Ratio;
use crate::reading::{read, Command};
use crate::search;
use crate::session::{Manner, Session};
use crate::settling::{Outcome, Posed, LARGEST_ALLOWANCE};
use crate::words::{self, Habit, Text};

const EDGE_PITCHES: [i64; 14] = [
    12_000_000,
    12_000_001,
    11_999_999,
    -12_000_000,
    -12_000_001,
    -11_999_999,
    99_999_999,
    -99_999_999,
    0,
    -1,
    1,
    -9,
    -10,
    -500,
];
const EDGE_BOUNDS: [u64; 10] = [
    0,
    1,
    30_030,
    LARGEST_BOUND - 1,
    LARGEST_BOUND,
    LARGEST_BOUND + 1,
    2_147_483_648,
    4_294_967_295,
    4_294_967_296,
    9_999_999_999,
];
const EDGE_ALLOWANCES: [u64; 9] = [
    0,
    1,
    LARGEST_ALLOWANCE - 1,
    LARGEST_ALLOWANCE,
    LARGEST_ALLOWANCE,
    LARGEST_ALLOWANCE + 1,
    4_294_967_295,
    4_294_967_296,
    9_999_999_999,
];
/// Numbers of tones and candidates that may be taken for smaller ones.
const FAR_INDICES: [u64; 9] = [8, 9, 31, 32, 33, 256, 4_294_967_295, 4_294_967_296, 9_999_999_999];

/// The bytes of one session.
pub fn session(seed: u64, index: u64) -> Vec<u8> {
    let mut maker = Maker::new(Random::for_item(seed, index));
    match maker.random.below(100) {
        0 => {}
        1..=4 => maker.any_bytes(),
        5..=11 => maker.full_draft(),
        12..=18 => maker.many_tones(),
        19 => maker.far_apart(),
        20..=24 => maker.one_pair(),
        25 => maker.deep(),
        26..=46 => maker.scattered(),
        _ => maker.composing(),
    }
    maker.finish()
}

struct Maker {
    random: Random,
    /// The draft as the lines so far leave it.
    model: Session,
    text: Vec<u8>,
    habit: Habit,
    /// How many lines of a thousand are damaged.
    damage: u64,
    /// The most trials that a settling may take.
    most_trials: u64,
}

impl Maker {
    fn new(mut random: Random) -> Maker {
        let habit = match random.below(10) {
            0..=4 => Habit { zeros: 0, wrong_forms: 0 },
            5..=6 => Habit { zeros: 60, wrong_forms: 10 },
            7..=8 => Habit { zeros: 700, wrong_forms: 20 },
            _ => Habit { zeros: 900, wrong_forms: 100 },
        };
        let damage = *random.pick(&[0, 0, 0, 20, 20, 100, 400]);
        let most_trials = match random.below(1000) {
            0..=2 => 1_000_000,
            3..=30 => 100_000,
            31..=250 => 10_000,
            _ => 1_500,
        };
        Maker { random, model: Session::new(Manner::documented()), text: Vec::new(), habit, damage, most_trials }
    }

    /// The whole text. Its last line may lack byte 10.
    fn finish(mut self) -> Vec<u8> {
        if self.random.per_mille(150) && self.text.last() == Some(&b'\n') {
            self.text.pop();
        } else if self.random.per_mille(40) {
            let tail = self.unfinished_line();
            self.text.extend(tail);
        }
        self.text
    }

    /// A last line that may look like none.
    fn unfinished_line(&mut self) -> Text {
        let short: [&[u8]; 8] = [b"\0", b"\r", b" ", b"\xff", b"x", b"level 5\0", b"level 5\r", b"settle 0"];
        match self.random.below(3) {
            0 => vec![*self.random.pick(b"\0\r x0"); *self.random.pick(&[79, 80, 81, 82, 5000])],
            _ => self.random.pick(&short).to_vec(),
        }
    }

    // ---- what is said ----

    /// Says a line, which may be damaged on the way.
    fn say(&mut self, line: Text) {
        let damage = self.random.per_mille(self.damage);
        let line = if damage { damaged(&mut self.random, &line) } else { line };
        for part in line.split(|&byte| byte == b'\n') {
            self.say_exactly(part);
        }
    }

    fn say_exactly(&mut self, line: &[u8]) {
        match read(line, false) {
            Ok(Command::Settle { allowance }) if self.is_too_dear(allowance.value) => {
                let less = self.random.below(self.most_trials);
                self.write(format!("settle {less}").as_bytes());
            }
            Ok(Command::Settle { .. }) => self.write(line),
            _ => {
                self.model.hear(line);
                self.write(line);
            }
        }
    }

    fn write(&mut self, line: &[u8]) {
        self.text.extend(line);
        self.text.push(b'\n');
    }

    /// Whether a settling under this allowance would take more trials than wanted.
    fn is_too_dear(&self, allowance: u64) -> bool {
        self.most_trials < allowance && allowance <= LARGEST_ALLOWANCE && self.trials().is_none()
    }

    /// The trials of a settling, if they are not too many.
    fn trials(&self) -> Option<u64> {
        let posed = Posed::new(&self.model.draft, Measure::Barlow);
        match search::settle::<Total>(&posed, self.most_trials) {
            Outcome::Scale { trials, .. } | Outcome::NoScale { trials } => Some(trials),
            Outcome::Spent => None,
        }
    }

    // ---- commands with given values ----

    fn number(&mut self, value: u64) -> Text {
        words::number(&mut self.random, self.habit, value)
    }

    fn tone(&mut self, pitch: i64) {
        let word = words::cents(&mut self.random, self.habit, pitch);
        self.say(words::line(&[b"tone".to_vec(), word]));
    }

    fn try_parts(&mut self, tone: u64, parts: (u64, u64)) {
        let tone = self.number(tone);
        let ratio = words::ratio(&mut self.random, self.habit, parts);
        self.say(words::line(&[b"try".to_vec(), tone, ratio]));
    }

    fn numbers(&mut self, command: &str, values: &[u64]) {
        let mut line = vec![command.as_bytes().to_vec()];
        for &value in values {
            line.push(self.number(value));
        }
        self.say(words::line(&line));
    }

    // ---- values ----

    fn tones(&self) -> usize {
        self.model.draft.tones.len()
    }

    /// The number of a tone, mostly of one that is there.
    fn some_tone(&mut self) -> u64 {
        let tones = self.tones() as u64;
        match self.random.below(40) {
            0 => tones,
            1 => tones + 1,
            2 => *self.random.pick(&FAR_INDICES),
            _ if tones == 0 => 0,
            3..=6 => tones - 1,
            _ => self.random.below(tones),
        }
    }

    /// The number of a candidate of this tone, mostly of one that is there.
    fn some_candidate(&mut self, tone: u64) -> u64 {
        let count = self.model.draft.tones.get(tone as usize).map_or(0, |tone| tone.candidates.len()) as u64;
        match self.random.below(20) {
            0 => count,
            1 => count + 1,
            2 => *self.random.pick(&FAR_INDICES),
            _ if count == 0 => 0,
            3 => count - 1,
            _ => self.random.below(count),
        }
    }

    fn some_pitch(&mut self) -> i64 {
        match self.random.below(10) {
            0 => *self.random.pick(&EDGE_PITCHES),
            1 => self.random.from_to(-12_000_000, 12_000_000),
            2 => self.random.from_to(-30_000, 30_000),
            _ => self.random.from_to(0, 24) * 100_000,
        }
    }

    /// Two numbers for a candidate of this tone, near its pitch if they are a ratio.
    fn some_parts(&mut self, tone: u64) -> (u64, u64) {
        match self.random.below(20) {
            0 => pool::doubtful(&mut self.random),
            1 => pool::large(&mut self.random),
            _ => self.near_parts(tone),
        }
    }

    fn near_parts(&mut self, tone: u64) -> (u64, u64) {
        let pitch = self.model.draft.tones.get(tone as usize).map_or(0, |tone| tone.pitch);
        let width = *self.random.pick(&[15_000, 30_000, 60_000]);
        let near = pool::near(&mut self.random, pitch, width).unwrap_or(Ratio { numerator: 1, denominator: 1 });
        match self.random.below(10) {
            0 => (near.numerator * 3, near.denominator * 3),
            1 => (near.numerator * 17, near.denominator * 17),
            _ => (near.numerator, near.denominator),
        }
    }

    /// A bound that keeps something out: a distance that occurs, or one less.
    fn some_bound(&mut self) -> u64 {
        if self.random.per_mille(90) {
            return *self.random.pick(&EDGE_BOUNDS);
        }
        let share = 1000 - self.random.below(1001) * self.random.below(1001) / 1000;
        match self.distance_at(share) {
            None => self.random.below(3_000_000),
            Some(distance) if self.random.per_mille(300) => distance.saturating_sub(1),
            Some(distance) => distance,
        }
    }

    /// Of some distances between candidates the one that exceeds so many of a thousand.
    fn distance_at(&mut self, share: u64) -> Option<u64> {
        let mut distances: Vec<u64> = (0..40).filter_map(|_| self.some_distance()).collect();
        distances.sort();
        let last = distances.len().checked_sub(1)?;
        Some(distances[last * share as usize / 1000])
    }

    /// The distance between candidates of two tones.
    fn some_distance(&mut self) -> Option<u64> {
        let tones = self.tones();
        if tones < 2 {
            return None;
        }
        let (one, other) = (self.random.place(tones), self.random.place(tones));
        if one == other {
            return None;
        }
        let (x, y) = (self.present_candidate(one)?, self.present_candidate(other)?);
        Some(Measure::Barlow.distance(&x.exponents(), &y.exponents()))
    }

    fn present_candidate(&mut self, tone: usize) -> Option<Ratio> {
        let candidates = &self.model.draft.tones.get(tone)?.candidates;
        if candidates.is_empty() {
            None
        } else {
            Some(*self.random.pick(candidates))
        }
    }

    fn some_allowance(&mut self) -> u64 {
        if self.random.per_mille(80) {
            return *self.random.pick(&EDGE_ALLOWANCES);
        }
        match self.trials() {
            None => self.random.below(self.most_trials + 1),
            Some(trials) => match self.random.below(10) {
                0..=2 => trials,
                3 => trials.saturating_sub(1),
                4 => trials + 1,
                5 => self.random.below(trials + 1),
                6 => LARGEST_ALLOWANCE,
                _ => trials + self.random.below(100_000),
            },
        }
    }

    // ---- whole commands ----

    fn some_try(&mut self) {
        let tone = self.some_tone();
        let parts = self.some_parts(tone);
        self.try_parts(tone, parts);
    }

    fn some_strike(&mut self) {
        let tone = self.some_tone();
        let candidate = self.some_candidate(tone);
        self.numbers("strike", &[tone, candidate]);
    }

    fn one_bound(&mut self) {
        let tone = self.some_tone();
        let other = if self.random.per_mille(40) { tone } else { self.some_tone() };
        let bound = self.some_bound();
        self.numbers("bound", &[tone, other, bound]);
    }

    fn one_level(&mut self) {
        let bound = self.some_bound();
        self.numbers("level", &[bound]);
    }

    fn one_settling(&mut self) {
        let allowance = self.some_allowance();
        self.numbers("settle", &[allowance]);
    }

    fn some_tone_line(&mut self) {
        let pitch = self.some_pitch();
        self.tone(pitch);
    }

    // ---- kinds of sessions ----

    /// Bytes without sense, with a command among them now and then.
    fn any_bytes(&mut self) {
        for _ in 0..1 + self.random.below(12) {
            let length = *self.random.pick(&[0, 1, 5, 20, 79, 80, 81, 82, 300]);
            let bytes: Text = (0..length).map(|_| self.random.below(256) as u8).collect();
            bytes.split(|&byte| byte == b'\n').for_each(|line| self.say_exactly(line));
            if self.random.per_mille(300) {
                self.some_command();
            }
        }
    }

    /// Commands of all kinds without a plan.
    fn scattered(&mut self) {
        let lines = match self.random.below(200) {
            0 => 3000 + self.random.below(4000),
            1..=9 => 200 + self.random.below(600),
            10..=99 => 1 + self.random.below(15),
            _ => 10 + self.random.below(60),
        };
        for _ in 0..lines {
            self.some_command();
        }
    }

    fn some_command(&mut self) {
        match self.random.below(100) {
            0..=17 => self.some_tone_line(),
            18..=54 => self.some_try(),
            55..=66 => self.some_strike(),
            67..=82 => self.one_bound(),
            83..=87 => self.one_level(),
            _ => self.one_settling(),
        }
    }

    /// As many tones as there may be, some with as many candidates as there may be.
    fn full_draft(&mut self) {
        let tones = 31 + self.random.below(3);
        for _ in 0..tones {
            self.some_tone_line();
        }
        let full = self.random.below(5);
        for tone in 0..self.tones() as u64 {
            let candidates = if self.random.below(5) <= full { 7 + self.random.below(3) } else { self.random.below(4) };
            self.candidates(tone, candidates);
        }
        for _ in 0..self.random.below(20) {
            self.some_command();
        }
        self.one_settling();
        self.some_tone_line();
        self.some_try();
        self.rounds();
    }

    fn candidates(&mut self, tone: u64, count: u64) {
        for _ in 0..count {
            let parts = self.some_parts(tone);
            self.try_parts(tone, parts);
        }
    }

    /// A long scale in which few tones have a choice, so that it settles in few trials.
    fn many_tones(&mut self) {
        let tones = 10 + self.random.below(23);
        self.enter_scale(tones);
        let only_large = self.random.per_mille(250);
        for tone in 0..self.tones() as u64 {
            let choices = if self.random.per_mille(200) { 1 + self.random.below(3) } else { 1 };
            for _ in 0..choices {
                let parts = if only_large { pool::large(&mut self.random) } else { self.near_parts(tone) };
                self.try_parts(tone, parts);
            }
        }
        self.one_settling();
        self.rounds();
    }

    /// A scale of middle length with several choices for each tone and wide bounds, which takes many trials.
    fn deep(&mut self) {
        self.most_trials = self.most_trials.max(200_000);
        let tones = 6 + self.random.below(6);
        self.enter_scale(tones);
        for tone in 0..self.tones() as u64 {
            for _ in 0..2 + self.random.below(3) {
                let parts = self.near_parts(tone);
                self.try_parts(tone, parts);
            }
        }
        self.one_settling();
        self.wide_level();
        self.one_settling();
    }

    /// Many tones that are all alike but two, so that the bound of that pair decides.
    fn one_pair(&mut self) {
        let tones = if self.random.per_mille(700) { MOST_TONES as u64 } else { 2 + self.random.below(30) };
        let pair = self.some_pair(tones);
        for tone in 0..tones {
            self.tone(0);
            let choices = if tone == pair.0 || tone == pair.1 { 2 + self.random.below(7) } else { 1 };
            for _ in 0..choices {
                let parts = if choices > 1 { self.near_parts(tone) } else { (1, 1) };
                self.try_parts(tone, parts);
            }
        }
        for _ in 0..2 + self.random.below(6) {
            self.pair_bound(pair);
            self.one_settling();
        }
    }

    /// Two tones of so many, often the first or the last ones.
    fn some_pair(&mut self, tones: u64) -> (u64, u64) {
        match self.random.below(4) {
            0 => (0, tones - 1),
            1 => (tones - 2, tones - 1),
            2 => (0, 1),
            _ => {
                let first = self.random.below(tones - 1);
                (first, first + 1 + self.random.below(tones - 1 - first))
            }
        }
    }

    /// A bound for this pair, or a level, that is a distance between candidates of the pair or of one of them and 1/1.
    fn pair_bound(&mut self, (one, other): (u64, u64)) {
        let exponents = |ratio: Option<Ratio>| ratio.map_or([0; 6], |ratio| ratio.exponents());
        let x = exponents(self.present_candidate(one as usize));
        let y = if self.random.per_mille(500) { exponents(self.present_candidate(other as usize)) } else { [0; 6] };
        let bound = Measure::Barlow.distance(&x, &y).saturating_sub(self.random.below(2));
        match self.random.below(3) {
            0 => self.numbers("level", &[bound]),
            1 => self.numbers("bound", &[one, other, bound]),
            _ => self.numbers("bound", &[other, one, bound]),
        }
    }

    /// As many tones as there may be, with ratios as far apart as they can be, for the largest costs and offsets.
    fn far_apart(&mut self) {
        for tone in 0..28 + self.random.below(5) {
            let pitch = *self.random.pick(&[-12_000_000, 12_000_000]);
            self.tone(pitch);
            let parts = pool::extreme(&mut self.random);
            self.try_parts(tone, parts);
        }
        self.one_settling();
        self.rounds();
    }

    /// A scale is entered, bounded, settled and changed, as a composer would.
    fn composing(&mut self) {
        let tones = match self.random.below(10) {
            0..=4 => 1 + self.random.below(5),
            5..=7 => 5 + self.random.below(8),
            _ => 13 + self.random.below(20),
        };
        if self.random.per_mille(200) {
            self.one_level();
        }
        self.enter_scale(tones);
        let most = 1 + self.random.below(5);
        let mut order: Vec<u64> = (0..self.tones() as u64).collect();
        if self.random.per_mille(300) {
            self.random.shuffle(&mut order);
        }
        for tone in order {
            let fewest = u64::from(!self.random.per_mille(20));
            let count = fewest + self.random.below(most);
            self.candidates(tone, count);
        }
        self.rounds();
    }

    /// Tones of an equal temperament, or very near to ratios.
    fn enter_scale(&mut self, tones: u64) {
        let steps = *self.random.pick(&[5, 7, 12, 12, 12, 12, 19, 24, 31]);
        let octave = if self.random.per_mille(150) { self.random.from_to(-9, 8) } else { 0 };
        let near_ratios = self.random.per_mille(200);
        let mut step = self.random.from_to(0, 2);
        for _ in 0..tones {
            let pitch = octave * 1_200_000 + step * 1_200_000 / steps;
            if near_ratios {
                self.tone_near_ratio(pitch);
            } else {
                self.tone(pitch);
            }
            step += self.random.from_to(1, 2);
        }
    }

    /// A tone a few thousandths of a cent from a ratio, and that ratio as its candidate.
    fn tone_near_ratio(&mut self, pitch: i64) {
        let Some(ratio) = pool::near(&mut self.random, pitch, 40_000) else {
            return self.tone(pitch);
        };
        let place = self.tones() as u64;
        let gap = self.random.from_to(-25, 25);
        self.tone(ratio.pitch() + gap);
        self.try_parts(place, (ratio.numerator, ratio.denominator));
    }

    /// Bounds and settlings by turns, with changes between.
    fn rounds(&mut self) {
        for _ in 0..1 + self.random.below(4) {
            self.bounds();
            self.one_settling();
            for _ in 0..self.random.below(4) {
                self.some_command();
            }
            if self.random.per_mille(500) {
                self.one_settling();
            }
        }
    }

    fn bounds(&mut self) {
        match self.random.below(10) {
            0..=2 => {}
            3 => self.one_level(),
            4..=6 => self.wide_level(),
            _ => {
                for _ in 0..1 + self.random.below(2 + self.tones().min(MOST_TONES) as u64) {
                    self.one_bound();
                }
            }
        }
    }

    /// A level that keeps out only the widest pairs, or none.
    fn wide_level(&mut self) {
        let share = 900 + self.random.below(101);
        let factor = 10 + self.random.below(20);
        if let Some(distance) = self.distance_at(share) {
            self.numbers("level", &[distance * factor / 10]);
        }
    }
}
