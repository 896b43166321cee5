//! The port from a text to its tree.

use sheet::{Ran, Tables, Token, Tokenised};

/// The tables of a run whose tokens the tokeniser makes, into as many numbers as they need.
pub(crate) struct FromText {
    pub tables: Tables,
    /// The rows of tokens with a shape, and its number.
    shapes: Vec<(usize, u32)>,
}

impl FromText {
    pub fn new(tables: &Tables) -> Self {
        let shapes = tables.tokens().enumerate();
        let shapes = shapes.filter(|(_, token)| token.shape > 0);
        Self {
            shapes: shapes.map(|(row, token)| (row, token.shape)).collect(),
            tables: Tables {
                tokens: vec![0; tables.tokens.len()],
                ..tables.clone()
            },
        }
    }

    /// The tokeniser alone.
    pub fn tokenise(&mut self) -> Tokenised {
        port::tokenise(&self.tables.text, &mut self.tables.tokens)
    }

    /// The tokeniser, the shape numbers and the run.
    pub fn run(&mut self, tree: &mut [u32], dropped: &mut [u32]) -> Ran {
        self.tokenise()?;
        for &(row, shape) in &self.shapes {
            self.tables.tokens[Token::WIDTH * row + 3] = shape;
        }
        port::run(&self.tables, tree, dropped)
    }
}
