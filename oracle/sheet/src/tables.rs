//! The four tables that go into a run.

use crate::{Bytes, Unread};

/// The version of a sheet.
const VERSION: u32 = 1;

#[derive(Debug, Clone, Copy, PartialEq, Eq)]
pub struct Token {
    pub kind: u32,
    pub start: u32,
    pub len: u32,
    /// 0 none, k the k-th shape.
    pub shape: u32,
}

#[derive(Debug, Clone, Copy, PartialEq, Eq)]
pub struct Shape {
    /// 1 command, 2 environment.
    pub class: u32,
    pub form: u32,
    pub value: u32,
}

impl Token {
    /// So many numbers make a row.
    pub const WIDTH: usize = 4;

    /// The row of these numbers, in the order of the fields.
    pub fn of(numbers: &[u32]) -> Self {
        Token {
            kind: numbers[0],
            start: numbers[1],
            len: numbers[2],
            shape: numbers[3],
        }
    }

    pub fn numbers(self) -> [u32; Token::WIDTH] {
        [self.kind, self.start, self.len, self.shape]
    }
}

/// For t, b and p the next state, or 0 for not accepted.
pub type State = [u32; 3];

/// The tables as they are lent: bytes and flat numbers, so that a table need not
/// consist of whole rows.
#[derive(Debug, Default, Clone, PartialEq, Eq)]
pub struct Tables {
    pub text: Vec<u8>,
    pub tokens: Vec<u32>,
    pub shapes: Vec<u32>,
    pub states: Vec<u32>,
}

impl Tables {
    pub fn new(text: &[u8], tokens: &[Token], shapes: &[Shape], states: &[State]) -> Self {
        Self {
            text: text.to_vec(),
            tokens: tokens.iter().flat_map(|token| token.numbers()).collect(),
            shapes: shapes
                .iter()
                .flat_map(|s| [s.class, s.form, s.value])
                .collect(),
            states: states.iter().flatten().copied().collect(),
        }
    }

    pub fn token_count(&self) -> usize {
        self.tokens.len() / Token::WIDTH
    }

    pub fn token(&self, index: usize) -> Token {
        Token::of(&self.tokens[Token::WIDTH * index..])
    }

    pub fn tokens(&self) -> impl Iterator<Item = Token> + '_ {
        (0..self.token_count()).map(|index| self.token(index))
    }

    pub fn shape_count(&self) -> usize {
        self.shapes.len() / 3
    }

    pub fn shape(&self, index: usize) -> Shape {
        let row = &self.shapes[3 * index..3 * index + 3];
        Shape {
            class: row[0],
            form: row[1],
            value: row[2],
        }
    }

    pub fn state_count(&self) -> usize {
        self.states.len() / 3
    }

    pub fn state(&self, index: usize) -> State {
        let row = &self.states[3 * index..3 * index + 3];
        [row[0], row[1], row[2]]
    }

    /// The tables of a sheet, if it is whole and nothing follows it.
    pub fn of_sheet(sheet: &[u8]) -> Option<Self> {
        let mut unread = Unread(sheet);
        if unread.number(1)? != VERSION {
            return None;
        }
        let tables = Self {
            text: unread.section()?.to_vec(),
            tokens: unread.numbers()?,
            shapes: unread.numbers()?,
            states: unread.numbers()?,
        };
        unread.0.is_empty().then_some(tables)
    }

    /// The sheet that `treelist` reads.
    pub fn sheet(&self) -> Vec<u8> {
        let mut sheet = Bytes::default();
        sheet.u8(VERSION);
        sheet.section(&self.text);
        for numbers in [&self.tokens, &self.shapes, &self.states] {
            let mut section = Bytes::default();
            numbers.iter().for_each(|&n| section.u32(n));
            sheet.section(&section.0);
        }
        sheet.0
    }
}
