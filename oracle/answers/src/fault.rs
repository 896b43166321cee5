//! How a run of the Rust ends, and what makes a run worthless.

use std::any::Any;
use std::fmt;

/// How the parser ended.
#[derive(Debug, Clone, Copy, PartialEq, Eq)]
pub enum End {
    /// It gave a tree.
    Whole,
    /// It panicked where document 01 refuses 5.
    GreedyEnvironment,
    /// It panicked where document 01 refuses 6.
    MarkBeforeNode,
}

/// Why a formula has no answer.
#[derive(Debug, Clone, PartialEq, Eq)]
pub enum Fault {
    /// The lexer panicked: the formula is outside the domain.
    Lexer(String),
    /// The parser panicked by none of the two assertions that document 01 knows.
    Parser(String),
    /// The two builds of the parser disagree.
    Builds(String),
    /// A verdict table disagrees with the glob matcher.
    Verdict(String),
}

impl fmt::Display for Fault {
    fn fmt(&self, f: &mut fmt::Formatter<'_>) -> fmt::Result {
        match self {
            Fault::Lexer(why) => write!(f, "the lexer panicked: {why}"),
            Fault::Parser(why) => write!(f, "the parser panicked: {why}"),
            Fault::Builds(why) => write!(f, "the two builds disagree: {why}"),
            Fault::Verdict(why) => write!(f, "a verdict table is wrong: {why}"),
        }
    }
}

/// What a panic said.
pub(crate) fn message(panic: &(dyn Any + Send)) -> String {
    let said = panic.downcast_ref::<&str>().map(|said| said.to_string());
    said.or_else(|| panic.downcast_ref::<String>().cloned())
        .unwrap_or_else(|| "something without words".to_owned())
}
