//! mitex-lexer, with a Lexer that hands everything on and tells the tape.

pub use mitex_lexer::{BraceKind, CommandName, IfCommandName, MacroEngine, Token, TokenStream};

use mitex_spec::CommandSpec;

#[derive(Debug)]
pub struct Lexer<'a, S: TokenStream<'a> = ()> {
    inner: mitex_lexer::Lexer<'a, S>,
}

/// What a token would be dropped for: 1 trivia, 2 opener, 3 closer of a skipped body.
/// The parser drops no other.
fn reason(token: Token) -> u32 {
    match token {
        token if token.is_trivia() => 1,
        Token::CommandName(CommandName::If(..)) => 2,
        Token::CommandName(CommandName::EndIf) => 3,
        _ => 0,
    }
}

impl<'a, S: TokenStream<'a>> Lexer<'a, S> {
    pub fn new(input: &'a str, spec: CommandSpec) -> Self
    where
        S: Default,
    {
        Self::new_with_bumper(input, spec, S::default())
    }

    pub fn new_with_bumper(input: &'a str, spec: CommandSpec, bumper: S) -> Self {
        let inner = mitex_lexer::Lexer::new_with_bumper(input, spec, bumper);
        Self { inner }.standing()
    }

    fn standing(self) -> Self {
        tape::write(|tape| tape.stand(self.inner.peek_text()));
        self
    }

    pub fn peek(&self) -> Option<Token> {
        tape::write(|tape| tape.settle());
        self.inner.peek()
    }

    pub fn peek_text(&self) -> Option<&'a str> {
        tape::write(|tape| tape.settle());
        self.inner.peek_text()
    }

    pub fn peek_char(&self) -> Option<char> {
        tape::write(|tape| tape.settle());
        self.inner.peek_char()
    }

    pub fn consume_utf8_bytes(&mut self, count: usize) {
        tape::write(|tape| tape.consume(count));
        self.inner.consume_utf8_bytes(count);
        tape::write(|tape| tape.stand(self.inner.peek_text()));
    }

    pub fn eat(&mut self) -> Option<(Token, &'a str)> {
        let (token, text) = self.inner.eat()?;
        tape::write(|tape| {
            tape.eat(text, reason(token));
            tape.stand(self.inner.peek_text());
        });
        Some((token, text))
    }
}
