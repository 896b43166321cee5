//! How many and which arguments a shape takes.

use sheet::{Shape, Tables};

use crate::kinds::*;

/// What may come as an argument: its letter in the verdict tables.
#[derive(Debug, Clone, Copy, PartialEq, Eq)]
pub(crate) enum Letter {
    Term,
    Bracket,
    Paren,
}

impl Letter {
    pub fn of_opener(kind: u32) -> Self {
        match kind {
            LEFT_BRACKET => Letter::Bracket,
            LEFT_PAREN => Letter::Paren,
            _ => Letter::Term,
        }
    }
}

/// A matcher that has accepted everything so far.
#[derive(Debug, Clone, Copy, PartialEq, Eq)]
pub(crate) enum Matcher {
    Nothing,
    AtMost { left: u32 },
    Greedy,
    Glob { state: u32 },
}

/// What a matcher answers; where it accepts, with its next state.
#[derive(Debug, Clone, Copy, PartialEq, Eq)]
pub(crate) enum Verdict {
    NotAccepted,
    /// As a whole item.
    Whole(Matcher),
    /// As a bare token.
    Bare(Matcher),
}

impl Matcher {
    pub fn of(shape: Shape) -> Self {
        match shape.form {
            1 | 2 if shape.value > 0 => Matcher::AtMost { left: shape.value },
            3 | 6 => Matcher::Greedy,
            4 => Matcher::Glob { state: shape.value },
            _ => Matcher::Nothing,
        }
    }

    /// The one question (02, #109): whether what comes next is accepted, and as what.
    pub fn verdict(self, letter: Letter, tables: &Tables) -> Verdict {
        match self {
            Matcher::Nothing | Matcher::AtMost { left: 0 } => Verdict::NotAccepted,
            Matcher::AtMost { left } => {
                Verdict::as_term(letter, Matcher::AtMost { left: left - 1 })
            }
            Matcher::Greedy => Verdict::as_term(letter, self),
            Matcher::Glob { state } => match tables.state(state as usize - 1)[letter as usize] {
                0 => Verdict::NotAccepted,
                state => Verdict::Whole(Matcher::Glob { state }),
            },
        }
    }
}

impl Verdict {
    /// A `[` or `(` counts as a term and is eaten alone.
    fn as_term(letter: Letter, next: Matcher) -> Self {
        match letter {
            Letter::Term => Verdict::Whole(next),
            Letter::Bracket | Letter::Paren => Verdict::Bare(next),
        }
    }
}
