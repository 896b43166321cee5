//! One text held against the repository's lexer.

use answers::{lexed, Fault, Spec};
use mitex_spec::CommandSpec;
use sheet::{Refusal, Tokenised};

use crate::lent::rows;
use crate::listed::{listed, Listed};
use crate::walk::tokens_differ;

/// A tokeniser over lent numbers: the port's, or in tests one that is wrong on purpose.
pub type Tokeniser<'t> = &'t dyn Fn(&[u8], &mut [u32]) -> Tokenised;

/// Who tells the differences: [`listed`], or in tests one that leaves a kind out.
pub type Lister<'l> = &'l dyn Fn(&[u8], &[String]) -> Option<Listed>;

/// What is held against the repository's lexer.
#[derive(Clone, Copy)]
pub struct Held<'h> {
    pub tokenise: Tokeniser<'h>,
    pub listed: Lister<'h>,
}

impl Held<'static> {
    /// The proved library.
    pub const PORT: Self = Self {
        tokenise: &port::tokenise,
        listed: &listed,
    };
}

/// A specification made ready for the lexer, and its names with a star.
pub struct Known {
    pub spec: Spec,
    pub(crate) commands: CommandSpec,
    pub(crate) starred: Vec<String>,
}

impl Known {
    pub fn new(spec: Spec) -> Self {
        let names = spec.shapes.iter().map(|shape| shape.name.clone());
        Self {
            starred: names.filter(|name| name.ends_with('*')).collect(),
            commands: spec.command_spec(),
            spec,
        }
    }
}

/// What was the same: so many tokens, none if the text was refused for its size, and which
/// differences were told.
#[derive(Debug, Default, PartialEq, Eq)]
pub struct Same {
    pub tokens: usize,
    pub refused: bool,
    pub told: Vec<Listed>,
}

/// The first difference that is not told, or what was the same. A panic of the lexer is a
/// fault.
pub fn difference(text: &str, known: &Known, held: Held) -> Result<Result<Same, String>, Fault> {
    match rows(text.as_bytes(), held.tokenise) {
        Ok(Ok(rows)) => lexed(|| tokens_differ(text, &rows, known, held)),
        Ok(Err(refusal)) => Ok(refused(text, refusal, held)),
        Err(said) => Ok(Err(said)),
    }
}

/// The most bytes and tokens that a text may have.
pub(crate) const BYTES: usize = 65_535;
pub(crate) const TOKENS: usize = 16_384;

fn refused(text: &str, refusal: Refusal, held: Held) -> Result<Same, String> {
    let size = Refusal {
        number: 1,
        place: 0,
    };
    if refusal != size || text.len() <= BYTES && !has_many_tokens(text, held)? {
        return Err(format!(
            "{} bytes with room enough: {refusal:?}",
            text.len()
        ));
    }
    Ok(Same {
        refused: true,
        ..Same::default()
    })
}

/// A comma behind a line break is always a token, so the text's tokens are those of its parts
/// up to such commas. A part that may have too many by itself is taken to have them.
fn has_many_tokens(text: &str, held: Held) -> Result<bool, String> {
    let mut tokens = 0;
    for part in text.split_inclusive("\n,") {
        match rows(part.as_bytes(), held.tokenise)? {
            Ok(rows) => tokens += rows.len(),
            Err(_) if part.len() > TOKENS => return Ok(true),
            Err(refusal) => return Err(format!("{part:?} with room enough: {refusal:?}")),
        }
    }
    Ok(tokens > TOKENS)
}
