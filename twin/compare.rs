//! `compare` runs a bench on random sessions, one process each, and compares what it writes with the twin's answers.

use parts::generator;
use parts::random::Random;
use parts::session::Manner;
use parts::talk::Talk;
use std::io::{self, Read, Write};
use std::process::{Child, ChildStdin, ChildStdout, Command, ExitCode, Stdio};
use std::sync::mpsc::{self, Receiver};
use std::thread;
use std::time::{Duration, Instant};

const USAGE: &str = "usage: compare COUNT SEED BENCH SAVED\n";

/// How long an answer may take.
const PATIENCE: Duration = Duration::from_secs(120);

/// How long the rest of a wrong answer is waited for.
const REST: Duration = Duration::from_millis(500);

fn main() -> ExitCode {
    let arguments: Vec<String> = std::env::args().skip(1).collect();
    let words: Vec<&str> = arguments.iter().map(String::as_str).collect();
    let [count, seed, bench, saved] = words.as_slice() else {
        return usage();
    };
    let (Ok(count), Ok(seed)) = (count.parse(), seed.parse()) else {
        return usage();
    };
    compare_all(count, seed, bench, saved)
}

fn usage() -> ExitCode {
    eprint!("{USAGE}");
    ExitCode::from(2)
}

fn compare_all(count: u64, seed: u64, bench: &str, saved: &str) -> ExitCode {
    let begun = Instant::now();
    for index in 0..count {
        let talk = Heard::of(seed, index);
        if let Err(fault) = compare(bench, &talk) {
            println!("session {index} of seed {seed}: {fault}");
            save(saved, &talk);
            return ExitCode::FAILURE;
        }
        if (index + 1) % 10_000 == 0 {
            eprintln!("{} sessions, {} seconds", index + 1, begun.elapsed().as_secs());
        }
    }
    println!("{count} sessions equal");
    ExitCode::SUCCESS
}

fn save(saved: &str, talk: &Heard) {
    match std::fs::write(saved, talk.input()) {
        Ok(()) => println!("the session is in {saved}"),
        Err(fault) => println!("the session could not be saved in {saved}: {fault}"),
    }
}

/// A session in the pieces in which it is sent, with the answers that are due after each and at the end.
struct Heard {
    pieces: Vec<(Vec<u8>, Vec<u8>)>,
    last: Vec<u8>,
}

impl Heard {
    fn of(seed: u64, index: u64) -> Heard {
        let input = generator::session(seed, index);
        let mut twin = Talk::new(Manner::documented());
        let pieces = cut(&input, &mut Random::for_item(!seed, index))
            .into_iter()
            .map(|piece| (piece.to_vec(), twin.hear(piece)))
            .collect();
        Heard { pieces, last: twin.finish() }
    }

    fn input(&self) -> Vec<u8> {
        self.pieces.iter().flat_map(|(piece, _)| piece.clone()).collect()
    }
}

/// Most sessions are sent at once; of the others some are sent line by line and some cut anywhere.
fn cut<'a>(input: &'a [u8], random: &mut Random) -> Vec<&'a [u8]> {
    match random.below(20) {
        0 => input.split_inclusive(|&byte| byte == b'\n').collect(),
        1 => {
            let mut pieces = Vec::new();
            let mut rest = input;
            while !rest.is_empty() {
                let (piece, others) = rest.split_at(rest.len().min(1 + random.place(100)));
                pieces.push(piece);
                rest = others;
            }
            pieces
        }
        _ => vec![input],
    }
}

/// A bench at work on one session.
struct Running {
    child: Child,
    input: Option<ChildStdin>,
    output: Receiver<Vec<u8>>,
    received: Vec<u8>,
}

fn compare(bench: &str, talk: &Heard) -> Result<(), String> {
    let mut running = Running::start(bench).map_err(|fault| format!("{bench} cannot be run: {fault}"))?;
    let result = running.converse(talk);
    if result.is_err() {
        let _ = running.child.kill();
        let _ = running.child.wait();
    }
    result
}

impl Running {
    fn start(bench: &str) -> io::Result<Running> {
        let mut child =
            Command::new(bench).stdin(Stdio::piped()).stdout(Stdio::piped()).stderr(Stdio::null()).spawn()?;
        let input = child.stdin.take();
        let output = child.stdout.take().map(followed).unwrap_or_else(|| mpsc::channel().1);
        Ok(Running { child, input, output, received: Vec::new() })
    }

    /// Sends each piece when the answers to those before it have come; then ends the input and waits for the rest.
    fn converse(&mut self, talk: &Heard) -> Result<(), String> {
        let mut expected = Vec::new();
        for (piece, answers) in &talk.pieces {
            self.receive(&expected)?;
            self.send(piece)?;
            expected.extend(answers);
        }
        self.input = None;
        expected.extend(&talk.last);
        self.receive(&expected)?;
        self.receive_end(&expected)?;
        self.end()
    }

    fn send(&mut self, piece: &[u8]) -> Result<(), String> {
        match &mut self.input {
            Some(input) => input.write_all(piece).map_err(|fault| format!("the bench reads no more: {fault}")),
            None => Err("the bench has no input".to_string()),
        }
    }

    /// Waits until all that is expected has come, or something else.
    fn receive(&mut self, expected: &[u8]) -> Result<(), String> {
        while self.received.len() < expected.len() && expected.starts_with(&self.received) {
            match self.output.recv_timeout(PATIENCE) {
                Ok(bytes) => self.received.extend(bytes),
                Err(_) => return Err(difference(expected, &self.received) + ", and nothing more comes"),
            }
        }
        if self.received == expected {
            Ok(())
        } else {
            Err(self.first_difference(expected))
        }
    }

    /// Waits for the end of the output; nothing more may come.
    fn receive_end(&mut self, expected: &[u8]) -> Result<(), String> {
        match self.output.recv_timeout(PATIENCE) {
            Ok(bytes) => {
                self.received.extend(bytes);
                Err(self.first_difference(expected))
            }
            Err(mpsc::RecvTimeoutError::Disconnected) => Ok(()),
            Err(mpsc::RecvTimeoutError::Timeout) => Err("the bench does not end".to_string()),
        }
    }

    /// Tells the first difference, after what else the bench has to say, so that no line is cut.
    fn first_difference(&mut self, expected: &[u8]) -> String {
        while let Ok(bytes) = self.output.recv_timeout(REST) {
            self.received.extend(bytes);
        }
        difference(expected, &self.received)
    }

    fn end(&mut self) -> Result<(), String> {
        match self.child.wait() {
            Ok(status) if status.code() == Some(0) => Ok(()),
            other => Err(format!("the answers are equal, but the bench ends with {other:?}")),
        }
    }
}

/// Reads all output as it comes, so that the bench never waits for its reader.
fn followed(mut output: ChildStdout) -> Receiver<Vec<u8>> {
    let (sender, receiver) = mpsc::channel();
    thread::spawn(move || {
        let mut piece = [0; 16_384];
        while let Ok(length) = output.read(&mut piece) {
            if length == 0 || sender.send(piece[..length].to_vec()).is_err() {
                break;
            }
        }
    });
    receiver
}

/// The first line in which two texts differ, told.
fn difference(expected: &[u8], found: &[u8]) -> String {
    let lines = |text: &[u8]| -> Vec<String> {
        text.split_inclusive(|&byte| byte == b'\n').map(|line| format!("{:?}", String::from_utf8_lossy(line))).collect()
    };
    let (expected, found) = (lines(expected), lines(found));
    let place = expected.iter().zip(&found).take_while(|(one, other)| one == other).count();
    let nothing = "nothing".to_string();
    format!(
        "line {} of the answers: the twin has {}, the bench has {}",
        place + 1,
        expected.get(place).unwrap_or(&nothing),
        found.get(place).unwrap_or(&nothing)
    )
}
