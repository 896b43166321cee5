//! A text's rows and the lexer's tokens walked in step.

use answers::{cuts, names};
use sheet::Token;

use crate::held::{Held, Known, Same, BYTES, TOKENS};
use crate::listed::Listed;

/// The last of the token kinds.
const LAST_KIND: u32 = 39;

/// The first difference that is not told, or what was the same. The lexer has no memory: behind
/// a difference that is told it begins anew where the tokeniser stands.
pub(crate) fn tokens_differ(
    text: &str,
    rows: &[Token],
    known: &Known,
    held: Held,
) -> Result<Same, String> {
    if text.len() > BYTES || rows.len() > TOKENS {
        return Err(format!(
            "{} bytes, {} tokens are taken",
            text.len(),
            rows.len()
        ));
    }
    let mut same = Same {
        tokens: rows.len(),
        ..Same::default()
    };
    let (mut at, mut lexer) = (0, rust_from(text, 0, known));
    for &row in rows {
        let end = source_end(text, at, row)?;
        let rust = lexer.next();
        let told = (held.listed)(&text.as_bytes()[at..], &known.starred);
        match (rust == Some(row), told) {
            (true, None) => {}
            (false, Some(kind)) if rust == rust_from(text, at, known).next() => {
                same.told.push(kind);
                lexer = rust_from(text, end, known);
            }
            _ => return Err(both(text, at, rust, row, told)),
        }
        at = end;
    }
    if !same.told.is_empty() {
        as_the_model(text, rows)?;
    }
    match (&text[at..], lexer.next()) {
        ("", None) => Ok(same),
        (left, next) => Err(format!(
            "left behind the last row: {left:?}, there {next:?}"
        )),
    }
}

/// Where a difference is told the lexer doesn't say what the tokeniser's token should be: there
/// it is the model's.
fn as_the_model(text: &str, rows: &[Token]) -> Result<(), String> {
    let rows: Vec<u32> = rows.iter().flat_map(|row| row.numbers()).collect();
    let mut expected = vec![0; rows.len()];
    match model::tokenise(text.as_bytes(), &mut expected, None) {
        Ok(_) if rows == expected => Ok(()),
        said => Err(format!(
            "where it differs as listed: {rows:?}\nthe model: {said:?} {expected:?}"
        )),
    }
}

/// The lexer's tokens from a place of the text on.
fn rust_from<'t>(text: &'t str, at: usize, known: &Known) -> impl Iterator<Item = Token> + 't {
    let moved = move |token: Token| Token {
        start: token.start + at as u32,
        ..token
    };
    cuts(&text[at..], known.commands.clone()).map(moved)
}

/// Where a token's source ends that begins at a place: behind its text, of `\begin{name}` and
/// `\end{name}` behind the `}`.
fn source_end(text: &str, at: usize, row: Token) -> Result<usize, String> {
    let before = match row.kind {
        27 => r"\begin{",
        28 => r"\end{",
        _ => "",
    };
    let end = row.start as usize + row.len as usize;
    let opened = text[at..].starts_with(before) && row.start as usize == at + before.len();
    let opened = opened && row.kind <= LAST_KIND;
    match text.get(end..) {
        Some(behind) if opened && end > at && (before.is_empty() || behind.starts_with('}')) => {
            Ok(end + usize::from(!before.is_empty()))
        }
        _ => Err(format!("at {at} begins no source of {row:?}")),
    }
}

fn both(text: &str, at: usize, rust: Option<Token>, row: Token, told: Option<Listed>) -> String {
    let shown = |token: Token| {
        let (start, end) = (token.start as usize, (token.start + token.len) as usize);
        let part = text.get(start..end).unwrap_or("outside the text");
        format!("{} {part:?} at {start}", names::token_kind(token.kind))
    };
    let rust = rust.map_or("nothing more".to_owned(), shown);
    let told = match told {
        Some(kind) => format!("told as {kind:?}"),
        None => "not told".to_owned(),
    };
    format!(
        "the Rust: {rust}\nthe port: {}\nat {at}, {told}",
        shown(row)
    )
}
