//! What the rivals share: all of a session, and the search that two of them go by.

pub mod draft;
pub mod ratio;
pub mod refusal;
#[allow(dead_code)]
pub mod search;
pub mod session;
pub mod settling;
pub mod talk;
mod words;
