//! The questions about a row, held against the model, for any numbers in the place of rows.

use sheet::{Row, LEAF};

/// Whether a row is display, inline, valid, whole, and whether it is a leaf inside the text.
pub type Answers = [bool; 5];

/// Who answers about a row of a tree over a text: the port, or in tests one that is wrong on
/// purpose.
pub type Asked<'a> = &'a dyn Fn(&[u8], &[u32], usize) -> Answers;

/// The proved library's answers.
pub fn by_port(text: &[u8], tree: &[u32], at: usize) -> Answers {
    [
        port::is_display(text, tree, at),
        port::is_inline(text, tree, at),
        port::is_valid(text, tree, at),
        port::is_whole(text, tree, at),
        port::is_leaf(text, tree, at),
    ]
}

/// The model's.
pub fn by_model(text: &[u8], tree: &[u32], at: usize) -> Answers {
    let rows: Vec<Row> = tree.chunks_exact(Row::WIDTH).map(Row::of).collect();
    [
        model::is_display(text, &rows, at),
        model::is_inline(text, &rows, at),
        model::is_valid(text, &rows, at),
        model::is_whole(text, &rows, at),
        leaf(text, rows.get(at)).is_some(),
    ]
}

/// The answers about a row, or how they differ from the model's. The leaf's text is asked of
/// the port alone.
pub fn answers_differ(
    text: &[u8],
    tree: &[u32],
    at: usize,
    asked: Asked,
) -> Result<Answers, String> {
    let (told, expected) = (asked(text, tree, at), by_model(text, tree, at));
    if told != expected {
        return Err(format!(
            "row {at}: the model {expected:?}, the port {told:?}"
        ));
    }
    let row = tree.chunks_exact(Row::WIDTH).nth(at).map(Row::of);
    let part = leaf(text, row.as_ref()).unwrap_or(&text[..0]);
    if port::leaf_text(text, tree, at).as_ptr_range() != part.as_ptr_range() {
        return Err(format!("row {at}: another part of the text"));
    }
    Ok(told)
}

/// The text of a leaf that lies inside the text.
fn leaf<'t>(text: &'t [u8], row: Option<&Row>) -> Option<&'t [u8]> {
    let row = row.filter(|row| row.tag == LEAF)?;
    let (start, len) = (row.start as usize, row.len as usize);
    text.get(start..start + len)
}
