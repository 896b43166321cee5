//! Tables that no lexer makes, through the proved library and the model of the papers: the
//! answers, and every element of both lent buffers before and after. Rows that no run gives,
//! for the questions. Any bytes as a text, for the tokeniser.

mod buffers;
mod case;
mod damage;
mod formula;
mod held;
mod questions;
mod rows;
mod smaller;
mod text;
mod tokens;

pub use buffers::{Around, Lent};
pub use case::Case;
pub use formula::{Formula, Tokeniser};
pub use held::{difference, Runner};
pub use questions::{by_model, by_port, Answers, Asked};
pub use rows::{Rows, TEXT};
pub use smaller::smallest;
