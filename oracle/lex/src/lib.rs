//! The proved tokeniser held against the repository's lexer, text by text, in one process.
//! Where they differ, a function of the text says so and why.

mod chance;
mod environment;
mod held;
mod lent;
mod listed;
mod parts;
mod tally;
mod texts;
mod walk;

pub use held::{difference, Held, Known, Lister, Same, Tokeniser};
pub use listed::{listed, Listed};
pub use parts::SHAPES;
pub use tally::Tally;
pub use texts::{all_behind_end, all_short, around_limits, by_chance, texts, SHORT};
