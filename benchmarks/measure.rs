//! Runs the bench and its three rivals on the same sessions, requires equal answers, and tells their times.

mod clock;
mod random;
mod sessions;

use sessions::{Goal, Session, FULL_ALLOWANCE};
use std::fs::{self, File};
use std::io;
use std::path::{Path, PathBuf};
use std::process::{Command, ExitCode, Stdio};
use std::time::Duration;

const USAGE: &str = "usage: measure BENCH PLAIN TUNED WIDE FOLDER\n";

fn main() -> ExitCode {
    let arguments: Vec<PathBuf> = std::env::args_os().skip(1).map(PathBuf::from).collect();
    let [bench, plain, tuned, wide, folder] = arguments.as_slice() else {
        eprint!("{USAGE}");
        return ExitCode::from(2);
    };
    match measure_all(&[bench, plain, tuned, wide], folder) {
        Ok(()) => ExitCode::SUCCESS,
        Err(fault) => {
            eprintln!("benchmarks: {fault}");
            ExitCode::FAILURE
        }
    }
}

type Programs<'a> = [&'a PathBuf; 4];

const NAMES: [&str; 4] = ["bench", "plain", "tuned", "wide"];

fn measure_all(programs: &Programs, folder: &Path) -> Result<(), String> {
    println!("| Session | Trials | bench, s | plain, s | tuned, s | wide, s | bench, trials/s | plain, trials/s | tuned, trials/s | wide, trials/s | bench / plain | bench / tuned | bench / wide |");
    println!("|---|--:|--:|--:|--:|--:|--:|--:|--:|--:|--:|--:|--:|");
    let mut measured = Vec::new();
    for session in sessions::all() {
        let times = measure(programs, &session, folder)?;
        println!("{}", times.row(session.name));
        measured.push((session, times));
    }
    println!();
    for (session, times) in &measured {
        for &goal in session.goals {
            println!("{}: {}", session.name, times.verdict(goal));
        }
    }
    Ok(())
}

/// What a session took each program, in seconds, and how many trials its answers tell of.
struct Times {
    bench: f64,
    plain: f64,
    tuned: f64,
    wide: f64,
    trials: u64,
}

/// Runs all programs in turn, as often as the session says, and keeps the best time of each.
fn measure(programs: &Programs, session: &Session, folder: &Path) -> Result<Times, String> {
    let input = folder.join("session");
    let answers = folder.join("answers");
    fs::write(&input, &session.text).map_err(told)?;
    let mut best = [Duration::MAX; 4];
    let mut expected: Option<Vec<u8>> = None;
    for _ in 0..session.runs {
        for place in 0..programs.len() {
            let time = run(programs[place], &input, &answers)?;
            best[place] = best[place].min(time);
            let found = fs::read(&answers).map_err(told)?;
            match &expected {
                None => expected = Some(found),
                Some(expected) if *expected == found => {}
                Some(_) => return Err(format!("{}: {} and bench answer differently", session.name, NAMES[place])),
            }
        }
    }
    let [bench, plain, tuned, wide] = best.map(|time| time.as_secs_f64());
    Ok(Times { bench, plain, tuned, wide, trials: trials(&expected.unwrap_or_default()) })
}

/// The processor time that a program takes to answer the input.
fn run(program: &Path, input: &Path, answers: &Path) -> Result<Duration, String> {
    let begun = clock::time_of_children();
    let status = Command::new(program)
        .stdin(Stdio::from(File::open(input).map_err(told)?))
        .stdout(Stdio::from(File::create(answers).map_err(told)?))
        .status()
        .map_err(|fault| format!("{} cannot be run: {fault}", program.display()))?;
    if !status.success() {
        return Err(format!("{} ends with {status}", program.display()));
    }
    Ok(clock::time_of_children() - begun)
}

fn told(fault: io::Error) -> String {
    fault.to_string()
}

/// How many trials the answers tell of. Only under the full allowance are trials spent here.
fn trials(answers: &[u8]) -> u64 {
    String::from_utf8_lossy(answers).lines().map(trials_in).sum()
}

fn trials_in(line: &str) -> u64 {
    let words: Vec<&str> = line.split(' ').collect();
    match words.as_slice() {
        ["scale", _, trials] => trials.parse().unwrap_or(0),
        ["no", "search", "25", _] => FULL_ALLOWANCE,
        _ => 0,
    }
}

impl Times {
    fn row(&self, name: &str) -> String {
        let Times { bench, plain, tuned, wide, trials } = *self;
        let seconds = [bench, plain, tuned, wide].map(|time| format!("{time:.4}")).join(" | ");
        let rates = [bench, plain, tuned, wide].map(|time| rate(trials, time)).join(" | ");
        let ratios = [bench / plain, bench / tuned, bench / wide].map(|ratio| format!("{ratio:.2}")).join(" | ");
        format!("| {name} | {} | {seconds} | {rates} | {ratios} |", grouped(trials))
    }

    fn verdict(&self, goal: Goal) -> String {
        let (words, ratio, most) = match goal {
            Goal::NoSlowerThanPlain => ("no slower than plain", self.bench / self.plain, 1.0),
            Goal::NoSlowerThanTuned => ("no slower than tuned", self.bench / self.tuned, 1.0),
            Goal::ThriceAsFastAsPlain => ("at least three times as fast as plain", self.bench / self.plain, 1.0 / 3.0),
        };
        format!("{words}: {} ({ratio:.2}, at most {most:.2})", if ratio <= most { "met" } else { "not met" })
    }
}

fn rate(trials: u64, seconds: f64) -> String {
    match trials {
        0 => String::new(),
        _ => grouped((trials as f64 / seconds) as u64),
    }
}

/// A number with a comma before each group of three digits.
fn grouped(number: u64) -> String {
    let digits = number.to_string();
    let groups: Vec<&str> =
        digits.as_bytes().rchunks(3).rev().filter_map(|group| std::str::from_utf8(group).ok()).collect();
    groups.join(",")
}
