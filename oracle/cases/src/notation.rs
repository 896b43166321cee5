//! Trees as document 01 writes them: `Root[Attach[Arg[Text[a]] _ b]]`.

use sheet::{Row, FINISH, START};

/// The tree of some rows over a text. A blank is written as `␣`.
pub fn notation(text: &str, rows: &[Row]) -> String {
    let mut tree = String::new();
    // Whether the row is the first one in its node.
    let mut first = true;
    for row in rows {
        if row.tag != FINISH && !first {
            tree.push(' ');
        }
        match row.tag {
            START => tree += &format!("{}[", node_name(row.kind)),
            FINISH => tree.push(']'),
            _ => tree += &part(text, row).replace(' ', "␣"),
        }
        first = row.tag == START;
    }
    tree
}

fn part<'t>(text: &'t str, row: &Row) -> &'t str {
    &text[row.start as usize..(row.start + row.len) as usize]
}

fn node_name(kind: u32) -> &'static str {
    match kind {
        0 => "Error",
        28 => "Arg",
        29 => "Delimiter",
        31 => "Text",
        32 => "Curly",
        33 => "Bracket",
        34 => "Paren",
        35 => "Cmd",
        36 => "Env",
        37 => "LR",
        38 => "Begin",
        39 => "End",
        40 => "BlockComment",
        41 => "TypstCode",
        42 => "Attach",
        43 => "Formula",
        44 => "Root",
        _ => unreachable!("not the kind of a node"),
    }
}
