//! A whole talk on standard input and output: what each read brings is answered before the next.

use super::draft::Draft;
use super::session::{Session, LONGEST_LINE};
use super::settling::Outcome;
use std::io::{self, Read, Write};
use std::process::ExitCode;

const CHUNK: usize = 4096;

/// Answers standard input, with this function to settle a draft under an allowance.
pub fn converse(settle: impl FnMut(&Draft, u64) -> Outcome) -> ExitCode {
    match answer_all(Session::new(settle)) {
        Ok(()) => ExitCode::SUCCESS,
        Err(_) => ExitCode::FAILURE,
    }
}

fn answer_all<S: FnMut(&Draft, u64) -> Outcome>(mut session: Session<S>) -> io::Result<()> {
    let (mut input, mut output) = (io::stdin().lock(), io::stdout().lock());
    let mut chunk = [0; CHUNK];
    let mut begun = Vec::with_capacity(LONGEST_LINE + 1);
    let mut answers = Vec::new();
    loop {
        let length = input.read(&mut chunk)?;
        if length == 0 {
            break;
        }
        let mut rest = &chunk[..length];
        while let Some(end) = rest.iter().position(|&byte| byte == b'\n') {
            if begun.is_empty() {
                session.hear(&rest[..end], &mut answers);
            } else {
                keep(&mut begun, &rest[..end]);
                session.hear(&begun, &mut answers);
                begun.clear();
            }
            rest = &rest[end + 1..];
        }
        keep(&mut begun, rest);
        output.write_all(&answers)?;
        output.flush()?;
        answers.clear();
    }
    if !begun.is_empty() {
        session.hear(&begun, &mut answers);
        output.write_all(&answers)?;
    }
    output.flush()
}

/// Adds bytes to the line that is begun; of a line that is too long one byte more than allowed is enough.
fn keep(begun: &mut Vec<u8>, bytes: &[u8]) {
    let room = LONGEST_LINE + 1 - begun.len();
    begun.extend_from_slice(&bytes[..bytes.len().min(room)]);
}
