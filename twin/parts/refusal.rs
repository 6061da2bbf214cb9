//! A refusal and its line.

#[derive(Clone, Copy, Debug, PartialEq, Eq)]
pub struct Refusal {
    pub number: u32,
    pub column: usize,
}

impl Refusal {
    pub fn new(number: u32, column: usize) -> Refusal {
        Refusal { number, column }
    }

    pub fn text(self) -> String {
        format!("no {} {} {}\n", layer(self.number), self.number, self.column)
    }
}

fn layer(number: u32) -> &'static str {
    match number {
        0..=5 => "text",
        6..=8 => "ratio",
        9 | 10 | 20..=23 => "draft",
        _ => "search",
    }
}
