//! The proved library held against the real Rust, formula by formula, in one process.

mod formulas;
mod held;
mod tally;

pub use formulas::formulas;
pub use held::{difference, Asked, Held, Questions, Rooms, Runner, Same};
pub use tally::Tally;
