//! A whole talk: bytes come in, and each byte that ends a line gives an answer.

use crate::reading::LONGEST_LINE;
use crate::session::{Manner, Session};

pub struct Talk {
    pub session: Session,
    line: Vec<u8>,
    begun: bool,
}

impl Talk {
    pub fn new(manner: Manner) -> Talk {
        Talk { session: Session::new(manner), line: Vec::new(), begun: false }
    }

    /// The answers to the lines that these bytes end.
    pub fn hear(&mut self, bytes: &[u8]) -> Vec<u8> {
        let mut answers = Vec::new();
        for &byte in bytes {
            if byte == b'\n' {
                answers.extend(self.answer());
            } else {
                self.keep(byte);
            }
        }
        answers
    }

    /// The answer to a last line that lacks its byte 10, if there is one.
    pub fn finish(&mut self) -> Vec<u8> {
        if self.begun {
            self.answer()
        } else {
            Vec::new()
        }
    }

    /// Of a line that is too long one byte more than allowed is enough.
    fn keep(&mut self, byte: u8) {
        self.begun = true;
        if self.line.len() <= LONGEST_LINE {
            self.line.push(byte);
        }
    }

    fn answer(&mut self) -> Vec<u8> {
        let answer = self.session.hear(&self.line);
        self.line.clear();
        self.begun = false;
        answer.into_bytes()
    }
}

/// All answers to a whole input.
pub fn transcript(input: &[u8], manner: Manner) -> Vec<u8> {
    let mut talk = Talk::new(manner);
    let mut answers = talk.hear(input);
    answers.extend(talk.finish());
    answers
}
