//! Damage to lines: bytes, spaces, words, letters and lengths go wrong.

use crate::random::Random;
use crate::words::Text;

/// Bytes that are easily taken for others, and the limits of the tests for digits and letters.
const ODD_BYTES: [u8; 20] =
    [0, 9, 10, 11, 13, 31, 32, 33, b'-', b'.', b'/', b'0', b'9', b':', b'@', b'`', 127, 128, 254, 255];

pub fn damaged(random: &mut Random, line: &[u8]) -> Text {
    match random.below(20) {
        0 => changed_byte(random, line),
        1 => odd_byte(random, line),
        2 => without_byte(random, line),
        3 => with_byte(random, line),
        4 => doubled_space(random, line),
        5 => [b" ", line].concat(),
        6 => [line, b" "].concat(),
        7 => without_word(random, line),
        8 => with_word(random, line),
        9 => swapped_words(random, line),
        10 => line.to_ascii_uppercase(),
        11 => capital(line),
        12 => [line, b"\r"].concat(),
        13 => other_space(random, line),
        14 => Text::new(),
        15 => cut(random, line),
        16 => command_alone(random, line),
        17 => repeated_byte(random, line),
        _ => lengthened(random, line),
    }
}

fn changed_byte(random: &mut Random, line: &[u8]) -> Text {
    replaced(random, line, |random| random.below(256) as u8)
}

fn odd_byte(random: &mut Random, line: &[u8]) -> Text {
    replaced(random, line, |random| *random.pick(&ODD_BYTES))
}

fn replaced(random: &mut Random, line: &[u8], byte: impl Fn(&mut Random) -> u8) -> Text {
    let mut text = line.to_vec();
    if !text.is_empty() {
        let place = random.place(text.len());
        text[place] = byte(random);
    }
    text
}

fn without_byte(random: &mut Random, line: &[u8]) -> Text {
    let mut text = line.to_vec();
    if !text.is_empty() {
        text.remove(random.place(line.len()));
    }
    text
}

fn with_byte(random: &mut Random, line: &[u8]) -> Text {
    let mut text = line.to_vec();
    let byte = if random.per_mille(500) { *random.pick(&ODD_BYTES) } else { random.below(256) as u8 };
    text.insert(random.place(line.len() + 1), byte);
    text
}

fn repeated_byte(random: &mut Random, line: &[u8]) -> Text {
    let mut text = line.to_vec();
    if !text.is_empty() {
        let place = random.place(line.len());
        text.insert(place, line[place]);
    }
    text
}

/// The places of the spaces.
fn spaces(line: &[u8]) -> Vec<usize> {
    (0..line.len()).filter(|&place| line[place] == b' ').collect()
}

fn doubled_space(random: &mut Random, line: &[u8]) -> Text {
    let mut text = line.to_vec();
    let spaces = spaces(line);
    if !spaces.is_empty() {
        text.insert(*random.pick(&spaces), b' ');
    }
    text
}

fn other_space(random: &mut Random, line: &[u8]) -> Text {
    let mut text = line.to_vec();
    let spaces = spaces(line);
    if !spaces.is_empty() {
        text[*random.pick(&spaces)] = *random.pick(&[9, 11, 13, 0, 160, b'_']);
    }
    text
}

fn words(line: &[u8]) -> Vec<&[u8]> {
    line.split(|&byte| byte == b' ').collect()
}

fn without_word(random: &mut Random, line: &[u8]) -> Text {
    let mut words = words(line);
    words.remove(random.place(words.len()));
    words.join(&b' ')
}

fn with_word(random: &mut Random, line: &[u8]) -> Text {
    let mut words = words(line);
    let place = random.place(words.len() + 1);
    let word: &[u8] = *random.pick(&[b"0".as_slice(), b"1", b"x", b"tone", b"3/2", b"0.000"]);
    words.insert(place, word);
    words.join(&b' ')
}

fn swapped_words(random: &mut Random, line: &[u8]) -> Text {
    let mut words = words(line);
    let (one, other) = (random.place(words.len()), random.place(words.len()));
    words.swap(one, other);
    words.join(&b' ')
}

fn capital(line: &[u8]) -> Text {
    let mut text = line.to_vec();
    if let Some(first) = text.first_mut() {
        first.make_ascii_uppercase();
    }
    text
}

fn cut(random: &mut Random, line: &[u8]) -> Text {
    line[..random.place(line.len() + 1)].to_vec()
}

fn command_alone(random: &mut Random, line: &[u8]) -> Text {
    let mut text = words(line)[0].to_vec();
    text.extend(std::iter::repeat_n(b' ', random.place(3)));
    text
}

/// The line made longer at its end, to about 80 bytes or far beyond.
fn lengthened(random: &mut Random, line: &[u8]) -> Text {
    let mut text = line.to_vec();
    let length = match random.below(10) {
        0..=2 => 80,
        3..=5 => 81,
        6 => 79,
        7 => 82,
        8 => 78 + random.place(200),
        _ => 1000 + random.place(4000),
    };
    let byte = *random.pick(b"0019x  \r\0\xff");
    while text.len() < length {
        text.push(byte);
    }
    text
}
