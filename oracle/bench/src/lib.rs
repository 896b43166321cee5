//! The port, the Rust's parser and a Vec of rows, timed on the same tokens; the port's
//! tokeniser and the Rust's lexer, timed on the same text.

mod clock;
mod from_text;
mod insertions;
mod measured;
mod rivals;
mod stack;
mod workloads;

pub use insertions::{insert_all, insertions, Insertion, Numbers};
pub use measured::Measured;
pub use rivals::{Prepared, Rival};
pub use stack::{least_stack, read_on};
pub use workloads::{Workload, BINDER, WORKLOADS};
