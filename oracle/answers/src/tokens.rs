//! Token rows from the repository's own lexer.

use mitex_lexer::Lexer;
use mitex_spec::CommandSpec;
use sheet::Token;

use crate::fault::{message, Fault};
use crate::quiet::catch;
use crate::{kinds, Spec};

/// The lexer's tokens, without macros. A command's shape is found by its text after
/// the backslash, an environment's by its text; on kinds that take no shape the number
/// is given as well, since document 01 has it checked and then ignored.
pub fn token_rows(text: &str, spec: &Spec) -> Result<Vec<Token>, Fault> {
    let command_spec = spec.command_spec();
    let with_shape = |token: Token| {
        let start = token.start as usize;
        let part = &text[start..start + token.len as usize];
        let shape = shape(token.kind, part, spec);
        Token { shape, ..token }
    };
    lexed(|| cuts(text, command_spec).map(with_shape).collect())
}

/// What is done with the lexer's tokens, or how it panicked.
pub fn lexed<T>(work: impl FnOnce() -> T) -> Result<T, Fault> {
    catch(work).map_err(|panic| Fault::Lexer(message(&*panic)))
}

/// The lexer's tokens one by one, without macros and without shapes.
pub fn cuts(text: &str, spec: CommandSpec) -> impl Iterator<Item = Token> + '_ {
    let mut lexer = Lexer::<()>::new(text, spec);
    std::iter::from_fn(move || {
        let (token, part) = lexer.eat()?;
        Some(Token {
            kind: kinds::number(token),
            start: (part.as_ptr() as usize - text.as_ptr() as usize) as u32,
            len: part.len() as u32,
            shape: 0,
        })
    })
}

fn shape(kind: u32, part: &str, spec: &Spec) -> u32 {
    match kind {
        kinds::BEGIN_ENVIRONMENT | kinds::END_ENVIRONMENT => spec.number(part),
        _ => part.strip_prefix('\\').map_or(0, |name| spec.number(name)),
    }
}
