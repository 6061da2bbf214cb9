//! `sessions` prints random sessions, or what the twin answers over many of them.

use parts::{generator, statistics};
use std::io::Write;
use std::process::ExitCode;

const USAGE: &str = "usage: sessions SEED NUMBER               prints the session with this number
       sessions --statistics COUNT [SEED]   tells what the twin answers over so many sessions
";

fn main() -> ExitCode {
    let arguments: Vec<String> = std::env::args().skip(1).collect();
    let words: Vec<&str> = arguments.iter().map(String::as_str).collect();
    let done = match words.as_slice() {
        ["--statistics", count] => tell(count, "1"),
        ["--statistics", count, seed] => tell(count, seed),
        [seed, number] => print(seed, number),
        _ => None,
    };
    match done {
        Some(()) => ExitCode::SUCCESS,
        None => {
            eprint!("{USAGE}");
            ExitCode::from(2)
        }
    }
}

fn tell(count: &str, seed: &str) -> Option<()> {
    let statistics = statistics::of_sessions(seed.parse().ok()?, count.parse().ok()?);
    print!("{}", statistics.text());
    Some(())
}

fn print(seed: &str, number: &str) -> Option<()> {
    let session = generator::session(seed.parse().ok()?, number.parse().ok()?);
    std::io::stdout().write_all(&session).ok()
}
