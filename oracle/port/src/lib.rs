//! The proved library, over the same tables and answers as the model.

use cartglaze::Answer;
use sheet::{Counts, Ran, Refusal, Row, Tables, Token, Tokenised};

pub use cartglaze::{is_display, is_inline, is_leaf, is_valid, is_whole, leaf_text};

// Both sides speak of the same rows.
const _: () = assert!(cartglaze::TREE_ROW == Row::WIDTH);
const _: () = assert!(cartglaze::TOKEN_ROW == Token::WIDTH);

/// The whole run over lent buffers.
pub fn run(tables: &Tables, tree: &mut [u32], dropped: &mut [u32]) -> Ran {
    let lent = cartglaze::Tables {
        text: &tables.text,
        tokens: &tables.tokens,
        shapes: &tables.shapes,
        states: &tables.states,
    };
    match cartglaze::run(lent, tree, dropped) {
        Answer::Accepted { rows, dropped } => Ok(Counts { rows, dropped }),
        Answer::Refused { number, place } => Err(Refusal {
            number: number as u32,
            place,
        }),
    }
}

/// The tokens of a text, into lent numbers.
pub fn tokenise(text: &[u8], numbers: &mut [u32]) -> Tokenised {
    match cartglaze::tokenise(text, numbers) {
        cartglaze::Tokenised::Written { tokens } => Ok(tokens),
        cartglaze::Tokenised::Refused { number, place } => Err(Refusal {
            number: number as u32,
            place,
        }),
    }
}
