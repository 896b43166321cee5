//! What the program `treelist` prints.

use std::fmt::Write;

use crate::{Answer, Dropped, Row, LEAF, START};

/// The lines of an answer, each with its line break.
pub fn listing(answer: &Answer) -> String {
    match answer {
        Answer::Accepted { rows, dropped } => accepted(rows, dropped),
        Answer::Refused { number, place } => format!("refused {number} {place}\n"),
    }
}

fn accepted(rows: &[Row], dropped: &[Dropped]) -> String {
    let mut lines = format!("ok {} {}\n", rows.len(), dropped.len());
    let mut depth = 0;
    for row in rows {
        let Row {
            tag,
            kind,
            start,
            len,
            token,
        } = row;
        match *tag {
            START => {
                put(&mut lines, format_args!("{depth} {kind} {token}"));
                depth += 1;
            }
            LEAF => put(
                &mut lines,
                format_args!("{depth} {kind} {start} {len} {token}"),
            ),
            _ => depth -= 1,
        }
    }
    for Dropped {
        token,
        reason,
        leaves,
    } in dropped
    {
        put(&mut lines, format_args!("d {token} {reason} {leaves}"));
    }
    lines
}

fn put(lines: &mut String, line: std::fmt::Arguments) {
    writeln!(lines, "{line}").expect("a String takes all");
}
