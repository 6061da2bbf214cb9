//! What the twin answers over many sessions: how many of each kind, and which refusals of the documentation were not met.

use crate::generator;
use crate::session::{Manner, Session};
use std::collections::{BTreeMap, BTreeSet};
use std::fmt::Write;

const COMMANDS: [&str; 6] = ["tone", "try", "strike", "bound", "level", "settle"];

/// A refusal as it is met: its number, the command of the line, and the column.
type Met = (u32, &'static str, usize);

#[derive(Default)]
pub struct Statistics {
    sessions: u64,
    bytes: u64,
    lines: u64,
    empty_inputs: u64,
    without_last_newline: u64,
    line_lengths: BTreeMap<usize, u64>,
    entered: BTreeMap<&'static str, u64>,
    refused: BTreeMap<Met, u64>,
    scales: BTreeMap<usize, u64>,
    trials: BTreeMap<usize, u64>,
    costs: BTreeMap<usize, u64>,
    costs_over_32_bits: u64,
    offsets: BTreeMap<&'static str, u64>,
    longest_answer: usize,
    most_lines: u64,
}

/// The statistics of so many sessions of a seed.
pub fn of_sessions(seed: u64, count: u64) -> Statistics {
    let mut statistics = Statistics::default();
    for index in 0..count {
        statistics.add(&generator::session(seed, index));
    }
    statistics
}

impl Statistics {
    fn add(&mut self, input: &[u8]) {
        self.sessions += 1;
        self.bytes += input.len() as u64;
        let mut lines: Vec<&[u8]> = input.split(|&byte| byte == b'\n').collect();
        if lines.last().is_some_and(|last| last.is_empty()) {
            lines.pop();
        } else {
            self.without_last_newline += 1;
        }
        self.empty_inputs += u64::from(input.is_empty());
        self.most_lines = self.most_lines.max(lines.len() as u64);
        let mut session = Session::new(Manner::documented());
        for line in lines {
            let answer = session.hear(line);
            self.add_answer(line, &answer);
        }
    }

    fn add_answer(&mut self, line: &[u8], answer: &str) {
        self.lines += 1;
        self.longest_answer = self.longest_answer.max(answer.len());
        if (79..=82).contains(&line.len()) {
            *self.line_lengths.entry(line.len()).or_default() += 1;
        }
        let words: Vec<&str> = answer.split_ascii_whitespace().collect();
        let command = command_of(line);
        match words[0] {
            "ok" => *self.entered.entry(command).or_default() += 1,
            "no" => {
                let met = (words[2].parse().unwrap_or(0), command, words[3].parse().unwrap_or(0));
                *self.refused.entry(met).or_default() += 1;
            }
            _ => self.add_scale(answer),
        }
    }

    fn add_scale(&mut self, answer: &str) {
        let mut lines = answer.lines();
        let first: Vec<&str> = lines.next().unwrap_or("").split(' ').collect();
        *self.costs.entry(first[1].len()).or_default() += 1;
        *self.trials.entry(first[2].len()).or_default() += 1;
        self.costs_over_32_bits += u64::from(first[1].parse::<u32>().is_err());
        let mut tones = 0;
        for line in lines {
            tones += 1;
            *self.offsets.entry(offset_kind(line)).or_default() += 1;
        }
        *self.scales.entry(tones).or_default() += 1;
    }

    pub fn text(&self) -> String {
        let mut text = String::new();
        let _ = writeln!(text, "{} sessions, {} lines, {} bytes", self.sessions, self.lines, self.bytes);
        let _ = writeln!(text, "empty inputs: {}", self.empty_inputs);
        let _ = writeln!(text, "last line without byte 10: {}", self.without_last_newline);
        let _ = writeln!(text, "most lines in a session: {}", self.most_lines);
        let _ = writeln!(text, "longest answer: {} bytes", self.longest_answer);
        let _ = writeln!(text, "lines of 79 to 82 bytes: {}", list(&self.line_lengths));
        let _ = writeln!(text, "ok: {}", list(&self.entered));
        let _ = writeln!(text, "scales by number of tones: {}", list(&self.scales));
        let _ = writeln!(text, "scales by digits of their cost: {}", list(&self.costs));
        let _ = writeln!(text, "scales that cost more than 32 bits hold: {}", self.costs_over_32_bits);
        let _ = writeln!(text, "scales by digits of their trials: {}", list(&self.trials));
        let _ = writeln!(text, "offsets: {}", list(&self.offsets));
        text += &self.refusals_text();
        text += &self.missing_text();
        text
    }

    /// A line for each number of a refusal and each command, with the columns and how often each was met.
    fn refusals_text(&self) -> String {
        let mut rows: BTreeMap<(u32, &str), BTreeMap<usize, u64>> = BTreeMap::new();
        for (&(number, command, column), &times) in &self.refused {
            rows.entry((number, command)).or_default().insert(column, times);
        }
        let mut text = String::new();
        for ((number, command), columns) in rows {
            let all: u64 = columns.values().sum();
            let _ = writeln!(text, "no {number} {command}: {all} (column: times) {}", list(&columns));
        }
        text
    }

    fn missing_text(&self) -> String {
        let documented = documented();
        let met: BTreeSet<Met> = self.refused.keys().copied().collect();
        format!(
            "documented refusals: {}, met: {}\nnot met: {:?}\nmet but not documented: {:?}\n",
            documented.len(),
            documented.intersection(&met).count(),
            documented.difference(&met).collect::<Vec<_>>(),
            met.difference(&documented).collect::<Vec<_>>(),
        )
    }
}

fn list<K: std::fmt::Display>(counts: &BTreeMap<K, u64>) -> String {
    counts.iter().map(|(key, times)| format!("{key}: {times}")).collect::<Vec<_>>().join(", ")
}

/// The command that a line begins with, or a dash.
fn command_of(line: &[u8]) -> &'static str {
    let first = line.split(|&byte| byte == b' ').next().unwrap_or(b"");
    COMMANDS.into_iter().find(|command| command.as_bytes() == first).unwrap_or("-")
}

fn offset_kind(line: &str) -> &'static str {
    let offset = line.rsplit(' ').next().unwrap_or("");
    match offset {
        "+0.00" => "+0.00",
        "-0.01" => "-0.01",
        "-0.00" => "-0.00",
        _ if offset.len() > 7 => "over 1000 cents",
        _ if offset.starts_with('+') => "other +",
        _ => "other -",
    }
}

/// Every refusal that docs/session.md allows, by number, command and column.
fn documented() -> BTreeSet<Met> {
    let mut all = BTreeSet::from([(3, "-", 1), (2, "-", 81), (22, "tone", 1), (23, "try", 5)]);
    for command in COMMANDS {
        all.extend([(2, command, 81), (4, command, 1), (5, command, command.len() + 2)]);
    }
    for number in 24..=26 {
        all.insert((number, "settle", 1));
    }
    all.extend([(9, "tone", 6), (9, "level", 7), (9, "settle", 8)]);
    all.extend([(20, "try", 5), (20, "strike", 8), (20, "bound", 7)]);
    for digits in 1..=10 {
        for number in 5..=8 {
            all.insert((number, "try", 6 + digits));
        }
        all.extend([(5, "strike", 9 + digits), (21, "strike", 9 + digits)]);
        all.extend([(5, "bound", 8 + digits), (10, "bound", 8 + digits), (20, "bound", 8 + digits)]);
        for others in 1..=10 {
            all.extend([(5, "bound", 9 + digits + others), (9, "bound", 9 + digits + others)]);
        }
    }
    all
}
