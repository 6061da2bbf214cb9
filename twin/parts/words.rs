//! How the words of a random session are written, well and badly.

use crate::random::Random;

pub type Text = Vec<u8>;

/// How often numbers are written with zeros before them, in a thousand.
#[derive(Clone, Copy)]
pub struct Habit {
    pub zeros: u64,
    pub wrong_forms: u64,
}

/// A number of 1 to 10 digits as a word; now and then one that lacks the form.
pub fn number(random: &mut Random, habit: Habit, value: u64) -> Text {
    if random.per_mille(habit.wrong_forms) {
        return wrong_number(random, value);
    }
    let plain = value.to_string();
    if random.per_mille(habit.zeros) {
        let width = random.from_to(plain.len().min(10) as i64, 10) as usize;
        return padded(&plain, width);
    }
    plain.into_bytes()
}

fn padded(digits: &str, width: usize) -> Text {
    format!("{digits:0>width$}").into_bytes()
}

fn wrong_number(random: &mut Random, value: u64) -> Text {
    let plain = value.to_string();
    match random.below(14) {
        0 => padded(&plain, 11),
        1 => padded(&plain, 12 + random.place(20)),
        2 => format!("-{plain}").into_bytes(),
        3 => format!("+{plain}").into_bytes(),
        4 => format!("{plain}.").into_bytes(),
        5 => format!("{plain}.000").into_bytes(),
        6 => format!("{plain}/1").into_bytes(),
        7 => format!("{plain}e3").into_bytes(),
        8 => format!("0x{plain}").into_bytes(),
        9 => format!("{plain}\r").into_bytes(),
        10 => format!("{plain}\t").into_bytes(),
        11 => b"x".to_vec(),
        12 => with_byte_changed(random, plain.as_bytes()),
        _ => random
            .pick(&[b"10000000000".as_slice(), b"18446744073709551616", b"4294967296000", b"/", b":", b"\0", b"-"])
            .to_vec(),
    }
}

/// Thousandths of a cent as a word of cents.
pub fn cents(random: &mut Random, habit: Habit, thousandths: i64) -> Text {
    if random.per_mille(habit.wrong_forms) {
        return wrong_cents(random, thousandths);
    }
    let sign = if thousandths < 0 || (thousandths == 0 && random.per_mille(300)) { "-" } else { "" };
    let size = thousandths.abs();
    let width = if random.per_mille(habit.zeros) { random.from_to(1, 5) as usize } else { 1 };
    format!("{sign}{:0width$}.{:03}", size / 1000, size % 1000).into_bytes()
}

fn wrong_cents(random: &mut Random, thousandths: i64) -> Text {
    let sign = if thousandths < 0 { "-" } else { "" };
    let (whole, rest) = (thousandths.abs() / 1000, thousandths.abs() % 1000);
    match random.below(17) {
        0 => format!("{sign}{whole}"),
        1 => format!("{sign}{whole}."),
        2 => format!("{sign}{whole}.{:02}", rest / 10),
        3 => format!("{sign}{whole}.{rest:03}0"),
        4 => format!("{sign}{whole:06}.{rest:03}"),
        5 => format!("+{whole}.{rest:03}"),
        6 => format!("--{whole}.{rest:03}"),
        7 => format!("{sign}.{rest:03}"),
        8 => format!("{sign}{whole},{rest:03}"),
        9 => format!("{sign}{whole}..{rest:03}"),
        10 => format!("{whole}-.{rest:03}"),
        11 => format!("{sign}{whole}.-{rest:02}"),
        12 => format!("{sign}{whole}.{rest:03}\r"),
        13 => format!("{sign}{whole}.{rest:03}.000"),
        14 => "-".to_string(),
        15 => "100000.000".to_string(),
        _ => return with_byte_changed(random, format!("{sign}{whole}.{rest:03}").as_bytes()),
    }
    .into_bytes()
}

/// Two numbers as a ratio word.
pub fn ratio(random: &mut Random, habit: Habit, (numerator, denominator): (u64, u64)) -> Text {
    if random.per_mille(habit.wrong_forms) {
        return wrong_ratio(random, numerator, denominator);
    }
    let rightly = Habit { wrong_forms: 0, ..habit };
    let mut word = number(random, rightly, numerator);
    word.push(b'/');
    word.extend(number(random, rightly, denominator));
    word
}

fn wrong_ratio(random: &mut Random, numerator: u64, denominator: u64) -> Text {
    match random.below(14) {
        0 => format!("{numerator:011}/{denominator}"),
        1 => format!("{numerator}/{denominator:011}"),
        2 => format!("{numerator}/"),
        3 => format!("/{denominator}"),
        4 => "/".to_string(),
        5 => format!("{numerator}"),
        6 => format!("{numerator}//{denominator}"),
        7 => format!("{numerator}/{denominator}/1"),
        8 => format!("-{numerator}/{denominator}"),
        9 => format!("{numerator}/-{denominator}"),
        10 => format!("{numerator}:{denominator}"),
        11 => format!("{numerator}/{denominator}\r"),
        12 => format!("{numerator}.0/{denominator}"),
        _ => return with_byte_changed(random, format!("{numerator}/{denominator}").as_bytes()),
    }
    .into_bytes()
}

/// The bytes with one of them changed into any other that ends no word and no line.
fn with_byte_changed(random: &mut Random, bytes: &[u8]) -> Text {
    let mut changed = bytes.to_vec();
    let place = random.place(changed.len());
    let byte = random.below(256) as u8;
    if byte != b' ' && byte != b'\n' {
        changed[place] = byte;
    }
    changed
}

/// Words with one space between them.
pub fn line(words: &[Text]) -> Text {
    words.join(&b' ')
}
