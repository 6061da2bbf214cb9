//! The sessions that are measured. They are the same on every machine.

use crate::random::Random;
use std::fmt::Write;

/// The largest allowance.
pub const FULL_ALLOWANCE: u64 = 1_000_000_000;

pub struct Session {
    pub name: &'static str,
    pub text: String,
    /// The best of so many runs counts.
    pub runs: u32,
    pub goals: &'static [Goal],
}

/// How fast the bench should be beside a rival.
#[derive(Clone, Copy)]
pub enum Goal {
    NoSlowerThanPlain,
    NoSlowerThanTuned,
    ThriceAsFastAsPlain,
}

const SEARCHING: &[Goal] = &[Goal::ThriceAsFastAsPlain, Goal::NoSlowerThanTuned];

/// How often the chromatic scale is settled, since once is too short to be measured.
const CHROMATIC_SETTLINGS: usize = 200;
const SMALL_SETTLINGS: usize = 10_000;
const ENTRIES: usize = 100_000;

pub fn all() -> Vec<Session> {
    vec![
        Session { name: "a chromatic", text: chromatic(), runs: 9, goals: SEARCHING },
        Session { name: "b thirteen by eight", text: thirteen_by_eight(), runs: 1, goals: SEARCHING },
        Session { name: "c twenty by four", text: twenty_by_four(), runs: 1, goals: SEARCHING },
        Session { name: "d small settlings", text: small_settlings(), runs: 25, goals: &[Goal::NoSlowerThanPlain] },
        Session {
            name: "e entries",
            text: entries(),
            runs: 25,
            goals: &[Goal::NoSlowerThanPlain, Goal::NoSlowerThanTuned],
        },
    ]
}

/// The candidates of the chromatic scale, tone by tone.
const CHROMATIC: [&str; 13] = [
    "1/1",
    "16/15 25/24",
    "9/8 10/9 8/7",
    "6/5 32/27 7/6",
    "5/4 81/64 32/25",
    "4/3 27/20 21/16",
    "45/32 64/45 7/5",
    "3/2 40/27 32/21",
    "8/5 128/81 25/16",
    "5/3 27/16 12/7",
    "16/9 9/5 7/4",
    "15/8 48/25 27/14",
    "2/1",
];

/// For each semitone the eight simplest ratios by Barlow within 50 cents of it that have no prime above 7.
const EIGHT_A_SEMITONE: [&str; 13] = [
    "1/1 80/81 81/80 63/64 64/63 35/36 36/35 125/128",
    "16/15 25/24 28/27 15/14 27/25 256/243 21/20 135/128",
    "9/8 10/9 8/7 35/32 28/25 256/225 144/125 729/640",
    "6/5 32/27 7/6 75/64 25/21 128/105 81/70 135/112",
    "5/4 9/7 81/64 32/25 35/27 56/45 100/81 80/63",
    "4/3 27/20 21/16 48/35 320/243 256/189 64/49 125/96",
    "7/5 45/32 10/7 64/45 25/18 36/25 81/56 112/81",
    "3/2 40/27 32/21 35/24 243/160 189/128 49/32 192/125",
    "8/5 14/9 25/16 128/81 45/28 81/50 63/40 405/256",
    "5/3 27/16 12/7 128/75 105/64 42/25 140/81 224/135",
    "16/9 9/5 7/4 64/35 25/14 225/128 125/72 49/27",
    "15/8 27/14 48/25 243/128 28/15 50/27 40/21 256/135",
    "2/1 81/40 63/32 160/81 128/63 35/18 72/35 125/64",
];

/// For each of twenty equal steps of an octave the four simplest ratios by Barlow within 30 cents of it that have no prime
/// above 7.
const FOUR_A_TWENTIETH: [&str; 20] = [
    "1/1 80/81 81/80 63/64",
    "25/24 28/27 21/20 36/35",
    "16/15 15/14 27/25 256/243",
    "9/8 10/9 35/32 28/25",
    "8/7 7/6 256/225 81/70",
    "6/5 32/27 75/64 25/21",
    "5/4 56/45 100/81 128/105",
    "9/7 81/64 32/25 35/27",
    "4/3 21/16 320/243 64/49",
    "27/20 25/18 48/35 112/81",
    "7/5 45/32 10/7 64/45",
    "40/27 36/25 35/24 81/56",
    "3/2 32/21 243/160 49/32",
    "14/9 25/16 128/81 63/40",
    "8/5 45/28 81/50 105/64",
    "5/3 27/16 128/75 42/25",
    "7/4 12/7 225/128 125/72",
    "16/9 9/5 64/35 25/14",
    "15/8 243/128 28/15 50/27",
    "27/14 48/25 40/21 35/18",
];

fn chromatic() -> String {
    draft(100, &CHROMATIC) + &settle(FULL_ALLOWANCE).repeat(CHROMATIC_SETTLINGS)
}

fn thirteen_by_eight() -> String {
    draft(100, &EIGHT_A_SEMITONE) + &settle(FULL_ALLOWANCE)
}

fn twenty_by_four() -> String {
    draft(60, &FOUR_A_TWENTIETH) + &settle(FULL_ALLOWANCE)
}

/// Tones in equal steps of cents with these candidates.
fn draft(step: usize, candidates: &[&str]) -> String {
    let mut text = String::new();
    for (place, ratios) in candidates.iter().enumerate() {
        let _ = writeln!(text, "tone {}.000", place * step);
        for ratio in ratios.split(' ') {
            let _ = writeln!(text, "try {place} {ratio}");
        }
    }
    text
}

fn settle(allowance: u64) -> String {
    format!("settle {allowance}\n")
}

/// A triad that is settled again and again. Before each tenth settling one of its candidates gives way to another.
fn small_settlings() -> String {
    let mut text = "level 600600\ntone 0.000\ntone 400.000\ntone 700.000\n".to_string();
    text += "try 0 1/1\ntry 1 5/4\ntry 1 81/64\ntry 2 3/2\ntry 2 40/27\n";
    for settling in 0..SMALL_SETTLINGS {
        if settling % 10 == 9 {
            let ratio = ["32/25", "81/64"][settling / 10 % 2];
            let _ = writeln!(text, "strike 1 1\ntry 1 {ratio}");
        }
        text += &settle(100);
    }
    text
}

/// Entries of all kinds into a full draft; about one in eight is refused.
fn entries() -> String {
    let mut random = Random::new(1);
    let mut text = draft(37, &FOUR_A_TWENTIETH);
    for place in FOUR_A_TWENTIETH.len()..32 {
        let _ = writeln!(text, "tone -{}.{:03}", place * 300, random.below(1000));
    }
    for _ in text.lines().count()..ENTRIES {
        entry(&mut random, &mut text);
    }
    text
}

fn entry(random: &mut Random, text: &mut String) {
    let tone = random.below(32);
    let _ = match random.below(100) {
        0..=39 => writeln!(text, "try {tone} {}", ratio(random)),
        40..=74 => writeln!(text, "strike {tone} {}", random.below(3)),
        75..=92 => {
            writeln!(text, "bound {tone} {} {}", (tone + 1 + random.below(31)) % 32, random.below(1_073_741_825))
        }
        93..=96 => writeln!(text, "level {}", random.below(1_073_741_825)),
        97 => writeln!(text, "tone {}.{:03}", random.below(12_000), random.below(1000)),
        98 => writeln!(text, "try {tone} 17/16"),
        _ => writeln!(text, "try  {tone} 3/2"),
    };
}

/// One of the ratios above, or a ratio of large numbers.
fn ratio(random: &mut Random) -> String {
    if random.below(10) == 0 {
        return format!("{}/{}", 3_u64.pow(random.below(21) as u32), 1_u64 << random.below(32));
    }
    let ratios: Vec<&str> = EIGHT_A_SEMITONE[random.below(13) as usize].split(' ').collect();
    ratios[random.below(8) as usize].to_string()
}
