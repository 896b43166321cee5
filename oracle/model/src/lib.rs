//! Document 01 as a plain program, with the fifth number that document 02 adds to a row, its
//! strict question and its tokeniser.
//!
//! It shares no code with the parser of mitex, so that holding the two against each other
//! tests how the document is read. Where the document itself says that a routine is as the
//! source has it, so it is here: agreement there shows a true copy and no more. Unlike the
//! Rust it takes any tables, also those that no lexer makes, and it writes to lent buffers.

mod arguments;
mod checks;
mod commands;
mod items;
mod kinds;
mod matcher;
mod questions;
mod reader;
mod refusal;
mod rows;
mod slip;
mod stops;
mod token_slip;
mod tokens;

pub use questions::{is_display, is_inline, is_valid, is_whole};
pub use slip::Slip;
pub use token_slip::TokenSlip;
pub use tokens::tokenise;

use reader::Reader;
use rows::Rows;
use sheet::{Answer, Ran, Tables};

/// The whole run over lent buffers. Refusals 1 to 4 write nothing, the others set both
/// buffers to zeros.
pub fn run(tables: &Tables, tree: &mut [u32], dropped: &mut [u32], slip: Option<Slip>) -> Ran {
    checks::check(tables, dropped.len())?;
    let result = Reader::new(tables, Rows::new(tree, dropped, slip), slip).read();
    if result.is_err() {
        tree.fill(0);
        dropped.fill(0);
    }
    result
}

/// The answer with a tree buffer of so many numbers and a dropped buffer of three
/// numbers a token.
pub fn answer(tables: &Tables, room: usize, slip: Option<Slip>) -> Answer {
    let mut tree = vec![0; room];
    let mut dropped = vec![0; 3 * tables.token_count()];
    let ran = run(tables, &mut tree, &mut dropped, slip);
    Answer::of(ran, &tree, &dropped)
}
