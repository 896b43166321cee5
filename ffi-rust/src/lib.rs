//! A safe face over Cartglaze's static library. `include/cartglaze.h` says what each function promises; nothing is asked of a caller here that
//! Rust's types don't ask.
//!
//! A run needs stack, more the more nodes are open, and no more than 128 ever are. Formulas with so many were read on a thread with a stack of
//! 132 KiB, and not on one with 4 KiB less; the thread's own start takes a part of it. That is measured, on x86-64, and not proved; `make bench`
//! measures it again. A thread that Rust makes has 2 MiB unless its builder says another number. Nothing is taken from the heap.
#![deny(missing_docs)]

/// The exported functions, as `include/cartglaze.h` has them: a slice is a pointer and a length.
mod raw {
    extern "C" {
        pub fn cartglaze_tokenise(
            text: *const u8,
            text_length: usize,
            tokens: *mut u32,
            tokens_length: usize,
            first: *mut usize,
            second: *mut usize,
        ) -> bool;
        pub fn cartglaze_run(
            text: *const u8,
            text_length: usize,
            tokens: *const u32,
            tokens_length: usize,
            shapes: *const u32,
            shapes_length: usize,
            states: *const u32,
            states_length: usize,
            tree: *mut u32,
            tree_length: usize,
            dropped: *mut u32,
            dropped_length: usize,
            first: *mut usize,
            second: *mut usize,
        ) -> bool;
        pub fn cartglaze_is_display(text: *const u8, text_length: usize, tree: *const u32, tree_length: usize, row: usize) -> bool;
        pub fn cartglaze_is_inline(text: *const u8, text_length: usize, tree: *const u32, tree_length: usize, row: usize) -> bool;
        pub fn cartglaze_is_valid(text: *const u8, text_length: usize, tree: *const u32, tree_length: usize, row: usize) -> bool;
        pub fn cartglaze_is_whole(text: *const u8, text_length: usize, tree: *const u32, tree_length: usize, row: usize) -> bool;
        pub fn cartglaze_is_leaf(text: *const u8, text_length: usize, tree: *const u32, tree_length: usize, row: usize) -> bool;
        pub fn cartglaze_leaf_start(text: *const u8, text_length: usize, tree: *const u32, tree_length: usize, row: usize) -> usize;
        pub fn cartglaze_leaf_length(text: *const u8, text_length: usize, tree: *const u32, tree_length: usize, row: usize) -> usize;
        pub fn cartglaze_read(
            sheet: *const u8,
            sheet_length: usize,
            numbers: *mut u32,
            numbers_length: usize,
            text: *mut usize,
            tokens: *mut usize,
            shapes: *mut usize,
            states: *mut usize,
            needed: *mut usize,
        ) -> bool;
        pub fn cartglaze_list(
            accepted: bool,
            first: usize,
            second: usize,
            tree: *const u32,
            tree_length: usize,
            dropped: *const u32,
            dropped_length: usize,
            out: *mut u8,
            out_length: usize,
            length: *mut usize,
        ) -> bool;
    }
}

/// So many numbers make a token row: kind, start, length, shape number.
pub const TOKEN_ROW: usize = 4;

/// What a text comes to.
#[derive(Clone, Copy, Debug, PartialEq, Eq)]
pub enum Tokenised {
    /// So many token rows stand at the beginning of the lent numbers, with shape numbers 0; later elements are as they were.
    Written {
        /// The count of token rows.
        tokens: usize,
    },
    /// 11: a byte over 127, at this place. 1: a limit is passed, or too few numbers were lent; the place is 0. The lent numbers are as they were.
    Refused {
        /// The number of refusal.
        number: usize,
        /// Its place, counted from 0.
        place: usize,
    },
}

/// The token rows of a formula's text, which need [`TOKEN_ROW`] numbers each. There are no more tokens than bytes.
pub fn tokenise(text: &[u8], tokens: &mut [u32]) -> Tokenised {
    let (mut first, mut second) = (0, 0);
    // SAFETY: each pointer with its length is a slice that lives through the call, and what is written to is borrowed `mut`.
    let written = unsafe {
        raw::cartglaze_tokenise(text.as_ptr(), text.len(), tokens.as_mut_ptr(), tokens.len(), &mut first, &mut second)
    };
    if written {
        Tokenised::Written { tokens: first }
    } else {
        Tokenised::Refused { number: first, place: second }
    }
}

/// The tables that come in, each flat: token rows of 4 numbers, shape rows and state rows of 3.
#[derive(Clone, Copy, Debug, PartialEq, Eq)]
pub struct Tables<'a> {
    /// The text's bytes.
    pub text: &'a [u8],
    /// Kind, start, length, shape.
    pub tokens: &'a [u32],
    /// Class, form, value.
    pub shapes: &'a [u32],
    /// The next state for t, b, p.
    pub states: &'a [u32],
}

/// So many numbers make a row of the tree: tag (0 start, 1 leaf, 2 finish), kind, start, length, token. Start and length are 0 unless it is a leaf.
/// The token is named by its row among the tokens. A leaf has its own token; a start or a finish has the first token that was not wholly read just
/// before the row was made, the token count at the end. A tree buffer has room for its length / `TREE_ROW` rows, rounded down.
pub const TREE_ROW: usize = 5;

/// What a run comes to.
#[derive(Clone, Copy, Debug, PartialEq, Eq)]
pub enum Answer {
    /// So many tree rows and dropped rows stand at the beginning of their buffers; later elements are as they were.
    Accepted {
        /// The count of tree rows.
        rows: usize,
        /// The count of dropped rows.
        dropped: usize,
    },
    /// 1 to 4 leave the buffers as they were; 5 to 8 leave zeros.
    Refused {
        /// The number of refusal.
        number: usize,
        /// Its place, counted from 0.
        place: usize,
    },
}

/// The whole run. Tree rows have [`TREE_ROW`] numbers each, dropped rows 3.
pub fn run(tables: Tables, tree: &mut [u32], dropped: &mut [u32]) -> Answer {
    let Tables { text, tokens, shapes, states } = tables;
    let (mut first, mut second) = (0, 0);
    // SAFETY: each pointer with its length is a slice that lives through the call, and what is written to is borrowed `mut`.
    let accepted = unsafe {
        raw::cartglaze_run(
            text.as_ptr(),
            text.len(),
            tokens.as_ptr(),
            tokens.len(),
            shapes.as_ptr(),
            shapes.len(),
            states.as_ptr(),
            states.len(),
            tree.as_mut_ptr(),
            tree.len(),
            dropped.as_mut_ptr(),
            dropped.len(),
            &mut first,
            &mut second,
        )
    };
    if accepted {
        Answer::Accepted { rows: first, dropped: second }
    } else {
        Answer::Refused { number: first, place: second }
    }
}

/// A question about a row of tree rows, which are read [`TREE_ROW`] numbers a row; what is left over behind the last whole one is no row.
macro_rules! question {
    ($(#[$doc:meta])* $visible:vis $name:ident, $raw:ident, $answer:ty) => {
        $(#[$doc])*
        $visible fn $name(text: &[u8], tree: &[u32], row: usize) -> $answer {
            // SAFETY: each pointer with its length is a slice that lives through the call.
            unsafe { raw::$raw(text.as_ptr(), text.len(), tree.as_ptr(), tree.len(), row) }
        }
    };
}

question!(
    /// Whether the row is a formula whose first token is `$$` or `\[`.
    pub is_display, cartglaze_is_display, bool);
question!(
    /// Whether the row is a formula whose first token is `$` or `\(`.
    pub is_inline, cartglaze_is_inline, bool);
question!(
    /// Whether the row is a formula whose first and last token match: mitex's answer. A lone `$` is both, and valid. Print from [`is_whole`].
    pub is_valid, cartglaze_is_valid, bool);
question!(
    /// Whether the row is a formula whose first and last child are different leaves that match. A lone `$` is not whole, and `$a_$` isn't either: its
    /// script reads the closing `$`. What is whole is valid.
    pub is_whole, cartglaze_is_whole, bool);
question!(
    /// Whether the row is a leaf inside the text.
    pub is_leaf, cartglaze_is_leaf, bool);
question!(leaf_start, cartglaze_leaf_start, usize);
question!(leaf_length, cartglaze_leaf_length, usize);

/// The text of a leaf row, that part of the caller's; for a leaf outside it, another row or no row the empty part at its start.
pub fn leaf_text<'a>(text: &'a [u8], tree: &[u32], row: usize) -> &'a [u8] {
    let start = leaf_start(text, tree, row);
    &text[start..start + leaf_length(text, tree, row)]
}

/// So many numbers that every sheet's have room.
pub const SHEET_NUMBERS: usize = 8_192;

/// Where a sheet's text begins.
const SHEET_TEXT: usize = 5;

/// What a sheet comes to.
#[derive(Clone, Copy, Debug, PartialEq, Eq)]
pub enum Sheet<'a> {
    /// Its tables: the text is a part of the sheet, the others of the lent numbers, whose later elements are as they were.
    Read(Tables<'a>),
    /// Refusal 9. The lent numbers are as they were.
    Refused,
    /// It could be read, into more numbers than were lent. These are as they were.
    NoRoom {
        /// So many.
        needed: usize,
    },
}

/// The tables of a sheet.
pub fn read<'a>(sheet: &'a [u8], numbers: &'a mut [u32]) -> Sheet<'a> {
    let (mut text, mut tokens, mut shapes, mut states, mut needed) = (0, 0, 0, 0, 0);
    // SAFETY: each pointer with its length is a slice that lives through the call, and what is written to is borrowed `mut`.
    let is_read = unsafe {
        raw::cartglaze_read(
            sheet.as_ptr(),
            sheet.len(),
            numbers.as_mut_ptr(),
            numbers.len(),
            &mut text,
            &mut tokens,
            &mut shapes,
            &mut states,
            &mut needed,
        )
    };
    if !is_read {
        return if needed == 0 { Sheet::Refused } else { Sheet::NoRoom { needed } };
    }
    let (tokens, rest) = numbers.split_at(tokens);
    let (shapes, rest) = rest.split_at(shapes);
    Sheet::Read(Tables { text: &sheet[SHEET_TEXT..SHEET_TEXT + text], tokens, shapes, states: &rest[..states] })
}

/// What a listing comes to.
#[derive(Clone, Copy, Debug, PartialEq, Eq)]
pub enum Listed {
    /// It stands at the beginning of the lent bytes; later ones are as they were.
    Bytes {
        /// So many bytes.
        length: usize,
    },
    /// It has more bytes than were lent. These are as they were.
    NoRoom {
        /// So many.
        needed: usize,
    },
}

/// The listing of an answer and of both buffers, as [`run`] left them: the lines that `treelist` prints.
pub fn list(answer: Answer, tree: &[u32], dropped: &[u32], out: &mut [u8]) -> Listed {
    let (accepted, first, second) = match answer {
        Answer::Accepted { rows, dropped } => (true, rows, dropped),
        Answer::Refused { number, place } => (false, number, place),
    };
    let mut length = 0;
    // SAFETY: each pointer with its length is a slice that lives through the call, and what is written to is borrowed `mut`.
    let written = unsafe {
        raw::cartglaze_list(
            accepted,
            first,
            second,
            tree.as_ptr(),
            tree.len(),
            dropped.as_ptr(),
            dropped.len(),
            out.as_mut_ptr(),
            out.len(),
            &mut length,
        )
    };
    if written {
        Listed::Bytes { length }
    } else {
        Listed::NoRoom { needed: length }
    }
}
