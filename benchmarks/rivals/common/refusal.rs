//! A refusal and its line, and how numbers are written.

#[derive(Clone, Copy)]
pub struct Refusal {
    pub number: u32,
    pub column: usize,
}

impl Refusal {
    pub fn write(self, out: &mut Vec<u8>) {
        out.extend_from_slice(b"no ");
        out.extend_from_slice(layer(self.number));
        out.push(b' ');
        write_number(u64::from(self.number), out);
        out.push(b' ');
        write_number(self.column as u64, out);
        out.push(b'\n');
    }
}

fn layer(number: u32) -> &'static [u8] {
    match number {
        0..=5 => b"text",
        6..=8 => b"ratio",
        9 | 10 | 20..=23 => b"draft",
        _ => b"search",
    }
}

/// Writes a number in digits.
pub fn write_number(mut number: u64, out: &mut Vec<u8>) {
    let mut digits = [0; 20];
    let mut place = digits.len();
    loop {
        place -= 1;
        digits[place] = b'0' + (number % 10) as u8;
        number /= 10;
        if number == 0 {
            break;
        }
    }
    out.extend_from_slice(&digits[place..]);
}
