//! A second bench, written from the documentation alone, to compare the program `bench` with.
//!
//! Each part follows one page: `ratio` docs/ratios.md, `measure` docs/measures.md, `costing` docs/costings.md, `draft`
//! docs/draft.md, `settling`, `brute` and `search` docs/settling.md, `reading`, `session` and `talk` docs/session.md.

pub mod brute;
pub mod costing;
pub mod damage;
pub mod draft;
pub mod generator;
pub mod measure;
pub mod pool;
pub mod random;
pub mod ratio;
pub mod reading;
pub mod refusal;
pub mod search;
pub mod self_check;
pub mod session;
pub mod settling;
pub mod statistics;
pub mod talk;
pub mod words;
