//! `twin` answers a session as `bench` should, from standard input to standard output.

use parts::costing::Named;
use parts::measure::Measure;
use parts::self_check;
use parts::session::{Manner, Method};
use parts::talk::Talk;
use std::io::{self, Read, Write};
use std::process::ExitCode;

const USAGE: &str = "usage: twin                          answers a session by search
       twin --brute                  the same by brute force, for small drafts
       twin --measures               by brute force, with the commands measure NAME and costing NAME
       twin --measures-by-search     the same by search, for drafts of any size
       twin --self-check N [SEED]    figures of the documentation, and N small drafts both ways
";

fn main() -> ExitCode {
    let arguments: Vec<String> = std::env::args().skip(1).collect();
    let words: Vec<&str> = arguments.iter().map(String::as_str).collect();
    match words.as_slice() {
        [] => answer(manner(Method::Search, false)),
        ["--brute"] => answer(manner(Method::Brute, false)),
        ["--measures"] => answer(manner(Method::Brute, true)),
        ["--measures-by-search"] => answer(manner(Method::Search, true)),
        ["--self-check", drafts] => check(drafts, "1"),
        ["--self-check", drafts, seed] => check(drafts, seed),
        _ => usage(),
    }
}

fn manner(method: Method, extras: bool) -> Manner {
    Manner { method, measure: Measure::Barlow, costing: Named::Total, extras }
}

fn usage() -> ExitCode {
    eprint!("{USAGE}");
    ExitCode::from(2)
}

fn answer(manner: Manner) -> ExitCode {
    match talk(Talk::new(manner)) {
        Ok(()) => ExitCode::SUCCESS,
        Err(_) => ExitCode::FAILURE,
    }
}

/// Answers what each read brings before the next read.
fn talk(mut talk: Talk) -> io::Result<()> {
    let (mut input, mut output) = (io::stdin().lock(), io::stdout().lock());
    let mut piece = [0; 65_536];
    loop {
        let length = input.read(&mut piece)?;
        let answers = if length == 0 { talk.finish() } else { talk.hear(&piece[..length]) };
        output.write_all(&answers)?;
        output.flush()?;
        if length == 0 {
            return Ok(());
        }
    }
}

fn check(drafts: &str, seed: &str) -> ExitCode {
    let (Ok(drafts), Ok(seed)) = (drafts.parse(), seed.parse()) else {
        return usage();
    };
    match self_check::run(drafts, seed) {
        Ok(tally) => {
            println!("{drafts} drafts agree, each by 5 measures and 3 costings: {tally:?}");
            ExitCode::SUCCESS
        }
        Err(fault) => {
            println!("{fault}");
            ExitCode::FAILURE
        }
    }
}
