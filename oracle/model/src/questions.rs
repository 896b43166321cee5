//! Questions about a formula's row.

use sheet::{Row, FINISH, LEAF, START};

use crate::kinds::TREE_FORMULA;

const DOLLAR: u32 = 14;
const BEGIN_MATH: u32 = 15;
const END_MATH: u32 = 16;

/// Whether the row starts a display formula.
pub fn is_display(text: &[u8], rows: &[Row], at: usize) -> bool {
    let first = edges(rows, at).and_then(|(first, _)| leaf(text, first));
    matches!(first, Some((DOLLAR, b"$$") | (BEGIN_MATH, b"\\[")))
}

/// Whether the row starts an inline formula.
pub fn is_inline(text: &[u8], rows: &[Row], at: usize) -> bool {
    let first = edges(rows, at).and_then(|(first, _)| leaf(text, first));
    matches!(first, Some((DOLLAR, b"$") | (BEGIN_MATH, b"\\(")))
}

/// Whether the first and the last token of the formula match. They may be the same.
pub fn is_valid(text: &[u8], rows: &[Row], at: usize) -> bool {
    edges(rows, at).is_some_and(|(first, last)| matching(leaf(text, first), leaf(text, last)))
}

/// Whether the formula's first and last child are different leaf rows that match as opener
/// and closer.
pub fn is_whole(text: &[u8], rows: &[Row], at: usize) -> bool {
    let children = inside(rows, at).map_or(Vec::new(), children);
    let [[first], .., [last]] = children[..] else {
        return false;
    };
    first.tag == LEAF
        && last.tag == LEAF
        && matching(leaf(text, Some(first)), leaf(text, Some(last)))
}

/// The rows of each child, of rows that balance: it ends where no more nodes are open than
/// before it.
fn children(rows: &[Row]) -> Vec<&[Row]> {
    let mut open = 0;
    let ends = |row: &Row| {
        match row.tag {
            START => open += 1,
            FINISH => open -= 1,
            _ => {}
        }
        open == 0
    };
    rows.split_inclusive(ends).collect()
}

/// A token's kind and text.
type Token<'t> = (u32, &'t [u8]);

/// Whether two tokens match as opener and closer.
fn matching(first: Option<Token>, last: Option<Token>) -> bool {
    match (first, last) {
        (Some((DOLLAR, first)), Some((DOLLAR, last))) => {
            first == last && (first == b"$" || first == b"$$")
        }
        (Some((BEGIN_MATH, first)), Some((END_MATH, last))) => {
            matches!((first, last), (b"\\(", b"\\)") | (b"\\[", b"\\]"))
        }
        _ => false,
    }
}

/// The rows where a formula's first and last token are looked for.
fn edges(rows: &[Row], at: usize) -> Option<(Option<&Row>, Option<&Row>)> {
    let inside = inside(rows, at)?;
    let first = inside.iter().find(|row| row.tag != START);
    let last = inside.iter().rev().find(|row| row.tag != FINISH);
    let a_leaf = |row: &&Row| row.tag == LEAF;
    Some((first.filter(a_leaf), last.filter(a_leaf)))
}

/// The rows between a formula's start and its matching finish.
fn inside(rows: &[Row], at: usize) -> Option<&[Row]> {
    let start = rows.get(at)?;
    if start.tag != START || start.kind != TREE_FORMULA {
        return None;
    }
    Some(&rows[at + 1..finish(rows, at)?])
}

/// The first later row where starts and finishes balance.
fn finish(rows: &[Row], at: usize) -> Option<usize> {
    let mut open = 0;
    for (index, row) in rows.iter().enumerate().skip(at) {
        match row.tag {
            START => open += 1,
            LEAF => {}
            FINISH => open -= 1,
            _ => return None,
        }
        if open == 0 {
            return Some(index);
        }
    }
    None
}

/// A leaf's kind and text, if it lies inside the text.
fn leaf<'t>(text: &'t [u8], row: Option<&Row>) -> Option<Token<'t>> {
    let row = row?;
    let (start, len) = (row.start as usize, row.len as usize);
    text.get(start..start + len).map(|part| (row.kind, part))
}
