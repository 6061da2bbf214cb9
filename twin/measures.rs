//! `measures` runs a program that settles by any measure and costing on random small drafts, one process each, and compares what
//! it writes with the answers of the twin, which settles by brute force.

use parts::costing::Named;
use parts::draft::Draft;
use parts::measure::{Measure, MEASURES};
use parts::random::Random;
use parts::self_check::small_draft;
use parts::session::{Manner, Method};
use parts::talk::transcript;
use std::fmt::Write as _;
use std::io::{self, Write};
use std::process::{Command, ExitCode, Stdio};

const USAGE: &str = "usage: measures COUNT SEED PROGRAM\n";

const COSTINGS: [&str; 3] = ["total", "worst", "worst-then-total"];

fn main() -> ExitCode {
    let arguments: Vec<String> = std::env::args().skip(1).collect();
    let words: Vec<&str> = arguments.iter().map(String::as_str).collect();
    let [count, seed, program] = words.as_slice() else {
        return usage();
    };
    let (Ok(count), Ok(seed)) = (count.parse(), seed.parse()) else {
        return usage();
    };
    compare_all(count, seed, program)
}

fn usage() -> ExitCode {
    eprint!("{USAGE}");
    ExitCode::from(2)
}

fn compare_all(count: u64, seed: u64, program: &str) -> ExitCode {
    for item in 0..count {
        let input = session(&mut Random::for_item(seed, item));
        let manner = Manner { method: Method::Brute, measure: Measure::Barlow, costing: Named::Total, extras: true };
        let expected = transcript(input.as_bytes(), manner);
        match answers(program, input.as_bytes()) {
            Ok(found) if found == expected => {}
            Ok(found) => {
                println!("draft {item} of seed {seed}:\n{input}");
                println!("the twin answers\n{}", String::from_utf8_lossy(&expected));
                println!("the program answers\n{}", String::from_utf8_lossy(&found));
                return ExitCode::FAILURE;
            }
            Err(fault) => {
                println!("{program} cannot be run: {fault}");
                return ExitCode::FAILURE;
            }
        }
    }
    println!("{count} drafts equal, each by {} measures and {} costings", MEASURES.len(), COSTINGS.len());
    ExitCode::SUCCESS
}

/// A small draft, settled by every measure and costing, with trials enough and with few.
fn session(random: &mut Random) -> String {
    let chosen = random.pick(&MEASURES).1;
    let mut lines = entries(&small_draft(random, chosen));
    for (name, _) in MEASURES {
        let _ = writeln!(lines, "measure {name}");
        for costing in COSTINGS {
            let _ = writeln!(lines, "costing {costing}\nsettle 1000000\nsettle {}", random.below(40));
        }
    }
    lines
}

/// The lines that enter a draft.
fn entries(draft: &Draft) -> String {
    let mut lines = String::new();
    for (number, tone) in draft.tones.iter().enumerate() {
        let _ = writeln!(lines, "tone {}.{:03}", tone.pitch / 1000, tone.pitch % 1000);
        for ratio in &tone.candidates {
            let _ = writeln!(lines, "try {number} {}", ratio.text());
        }
    }
    for other in 0..draft.tones.len() {
        for tone in 0..other {
            let _ = writeln!(lines, "bound {tone} {other} {}", draft.bound(tone, other));
        }
    }
    lines
}

fn answers(program: &str, input: &[u8]) -> io::Result<Vec<u8>> {
    let mut child = Command::new(program).stdin(Stdio::piped()).stdout(Stdio::piped()).spawn()?;
    if let Some(mut pipe) = child.stdin.take() {
        pipe.write_all(input)?;
    }
    Ok(child.wait_with_output()?.stdout)
}
