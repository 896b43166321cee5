//! mitex-lexer, with a Lexer whose tokens were made before: the parser on token rows.

pub use mitex_lexer::{BraceKind, CommandName, IfCommandName, MacroEngine, Token, TokenStream};

use std::cell::Cell;
use std::marker::PhantomData;
use std::slice::Iter;

use mitex_spec::CommandSpec;

type Tok = (Token, &'static str);

thread_local! {
    static PREPARED: Cell<&'static [Tok]> = const { Cell::new(&[]) };
}

/// Makes the tokens of a text. The next parsers of this thread read them, whatever text
/// they are given.
pub fn prepare(text: &'static str, spec: CommandSpec) {
    let mut lexer = mitex_lexer::Lexer::<()>::new(text, spec);
    let tokens: Vec<Tok> = std::iter::from_fn(|| lexer.eat()).collect();
    PREPARED.set(tokens.leak());
}

#[derive(Debug)]
pub struct Lexer<'a, S: TokenStream<'a> = ()> {
    /// The next token, and those behind it.
    peeked: Option<Tok>,
    left: Iter<'static, Tok>,
    stream: PhantomData<(S, &'a str)>,
}

impl<'a, S: TokenStream<'a>> Lexer<'a, S> {
    pub fn new(_: &'a str, _: CommandSpec) -> Self {
        let mut left = PREPARED.get().iter();
        Self {
            peeked: left.next().copied(),
            left,
            stream: PhantomData,
        }
    }

    pub fn new_with_bumper(input: &'a str, spec: CommandSpec, _: S) -> Self {
        Self::new(input, spec)
    }

    pub fn peek(&self) -> Option<Token> {
        self.peeked.map(|(kind, _)| kind)
    }

    pub fn peek_text(&self) -> Option<&'a str> {
        self.peeked.map(|(_, text)| text)
    }

    pub fn peek_char(&self) -> Option<char> {
        self.peek_text().and_then(|text| text.chars().next())
    }

    pub fn consume_utf8_bytes(&mut self, count: usize) {
        match &mut self.peeked {
            Some((_, text)) if text.len() > count => *text = &text[count..],
            Some(_) => self.peeked = self.left.next().copied(),
            None => {}
        }
    }

    pub fn eat(&mut self) -> Option<(Token, &'a str)> {
        let peeked = self.peeked.take()?;
        self.peeked = self.left.next().copied();
        Some(peeked)
    }
}
