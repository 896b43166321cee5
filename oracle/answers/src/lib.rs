//! What the real parser of mitex does with a formula, in document 01's numbers.
//!
//! Each formula is read twice: by the plain build, whose tree is the Rust's own
//! answer, and by a second build of the same files over recording doubles, which adds
//! positions, dropped tokens, places and the token of each row. [`Run::of`] compares the two
//! trees every time.

mod fault;
mod kinds;
mod layout;
pub mod names;
mod plain;
mod questions;
mod quiet;
mod run;
mod spec;
mod tokens;
mod verdicts;

pub use fault::{End, Fault};
pub use plain::{plain_tree, PlainRow, Tree};
pub use questions::formula_questions;
pub use quiet::with_deep_stack;
pub use run::Run;
pub use spec::{Class, Form, Named, Spec};
pub use tokens::{cuts, lexed, token_rows};
pub use verdicts::Verdicts;
