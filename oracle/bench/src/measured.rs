//! What was measured on one formula.

use std::fmt;
use std::time::Duration;

#[derive(Debug, Clone, Copy)]
pub struct Measured {
    pub tokens: usize,
    pub rows: usize,
    pub port: Duration,
    /// The Rust's parser on tokens that were made before.
    pub mitex: Duration,
    /// The Rust's parser with its lexer.
    pub whole: Duration,
    /// The lexer alone.
    pub lexing: Duration,
    pub vec: Duration,
    /// The port's tokeniser.
    pub tokenising: Duration,
    /// The port from the text to the tree.
    pub from_text: Duration,
}

impl Measured {
    pub const HEADING: &'static str = concat!(
        "tokens    rows     port    mitex    whole   lexing      vec      lex     text",
        "  port/mitex  port/vec"
    );

    pub fn port_to_mitex(&self) -> f64 {
        self.port.as_secs_f64() / self.mitex.as_secs_f64()
    }

    /// To the Rust's parser with its lexer, less that lexer's time alone.
    pub fn port_to_rest(&self) -> f64 {
        let rest = self.whole.saturating_sub(self.lexing);
        self.port.as_secs_f64() / rest.as_secs_f64()
    }

    pub fn port_to_vec(&self) -> f64 {
        self.port.as_secs_f64() / self.vec.as_secs_f64()
    }

    /// The tokeniser to the Rust's lexer.
    pub fn lex_to_mitex(&self) -> f64 {
        self.tokenising.as_secs_f64() / self.lexing.as_secs_f64()
    }

    /// From the text to the tree, to the Rust's parser with its lexer.
    pub fn text_to_mitex(&self) -> f64 {
        self.from_text.as_secs_f64() / self.whole.as_secs_f64()
    }

    /// Nanoseconds a token.
    pub fn per_token(&self, time: Duration) -> f64 {
        time.as_secs_f64() * 1e9 / self.tokens as f64
    }
}

impl fmt::Display for Measured {
    fn fmt(&self, f: &mut fmt::Formatter<'_>) -> fmt::Result {
        write!(f, "{:6} {:7}", self.tokens, self.rows)?;
        let times = [
            self.port,
            self.mitex,
            self.whole,
            self.lexing,
            self.vec,
            self.tokenising,
            self.from_text,
        ];
        for time in times {
            write!(f, " {:8.2}", self.per_token(time))?;
        }
        write!(f, " {:11.2}", self.port_to_mitex())?;
        write!(f, " {:9.2}", self.port_to_vec())
    }
}
