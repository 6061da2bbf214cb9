//! Costings: what a scale costs by its distances.

pub trait Costing {
    type Value: Copy + PartialEq + std::fmt::Debug;
    fn nil() -> Self::Value;
    fn of(distance: u64) -> Self::Value;
    fn joined(a: Self::Value, b: Self::Value) -> Self::Value;
    fn no_more(a: Self::Value, b: Self::Value) -> bool;
    fn text(value: Self::Value) -> String;

    /// Whether the first value is less than the second.
    fn less(a: Self::Value, b: Self::Value) -> bool {
        !Self::no_more(b, a)
    }
}

pub struct Total;
pub struct Worst;
pub struct WorstThenTotal;

impl Costing for Total {
    type Value = u64;

    fn nil() -> u64 {
        0
    }

    fn of(distance: u64) -> u64 {
        distance
    }

    fn joined(a: u64, b: u64) -> u64 {
        a.saturating_add(b)
    }

    fn no_more(a: u64, b: u64) -> bool {
        a <= b
    }

    fn text(value: u64) -> String {
        value.to_string()
    }
}

impl Costing for Worst {
    type Value = u64;

    fn nil() -> u64 {
        0
    }

    fn of(distance: u64) -> u64 {
        distance
    }

    fn joined(a: u64, b: u64) -> u64 {
        a.max(b)
    }

    fn no_more(a: u64, b: u64) -> bool {
        a <= b
    }

    fn text(value: u64) -> String {
        value.to_string()
    }
}

impl Costing for WorstThenTotal {
    type Value = (u64, u64);

    fn nil() -> (u64, u64) {
        (Worst::nil(), Total::nil())
    }

    fn of(distance: u64) -> (u64, u64) {
        (Worst::of(distance), Total::of(distance))
    }

    fn joined(a: (u64, u64), b: (u64, u64)) -> (u64, u64) {
        (Worst::joined(a.0, b.0), Total::joined(a.1, b.1))
    }

    fn no_more(a: (u64, u64), b: (u64, u64)) -> bool {
        if a.0 == b.0 {
            Total::no_more(a.1, b.1)
        } else {
            Worst::no_more(a.0, b.0)
        }
    }

    fn text(value: (u64, u64)) -> String {
        format!("{},{}", value.0, value.1)
    }
}

/// A costing by its name.
#[derive(Clone, Copy, Debug, PartialEq, Eq)]
pub enum Named {
    Total,
    Worst,
    WorstThenTotal,
}

pub const COSTINGS: [(&str, Named); 3] =
    [("total", Named::Total), ("worst", Named::Worst), ("worst-then-total", Named::WorstThenTotal)];
