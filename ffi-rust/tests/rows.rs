//! Any rows for the questions, held to the sentences of documents 01 and 02 said a second time.
#[path = "guarded/numbers.rs"]
mod numbers;

use cartglaze::{is_display, is_inline, is_leaf, is_valid, is_whole, leaf_text, TREE_ROW};
use numbers::Numbers;

/// Two dollars, then the other delimiters, one every two bytes; a dollar ends the text.
const TEXT: &[u8] = br"$$\(\)\[\]a$";

/// A row of the tree.
type Row = [u32; TREE_ROW];

fn rows(tree: &[u32]) -> Vec<Row> {
    tree.chunks_exact(TREE_ROW).map(|row| row.try_into().unwrap()).collect()
}

/// The part of the text that a leaf row names, if it is one and names one.
fn leaf([tag, _, start, length, _]: Row) -> Option<&'static [u8]> {
    let end = u64::from(start) + u64::from(length);
    (tag == 1 && end <= TEXT.len() as u64).then(|| &TEXT[start as usize..end as usize])
}

/// "starts kind 43 and has its matching finish: the first later row where starts and finishes balance, no tag over 2 before it": the rows between.
fn inside(rows: &[Row], row: usize) -> Option<&[Row]> {
    let behind = &rows[row + 1..];
    let mut open = 1;
    for (at, [tag, ..]) in behind.iter().enumerate() {
        match tag {
            0 => open += 1,
            1 => (),
            2 => open -= 1,
            _ => return None,
        }
        if open == 0 {
            return (rows[row][..2] == [0, 43]).then_some(&behind[..at]);
        }
    }
    None
}

/// A token by its kind and its text, if the row is a leaf inside the text.
type Token = Option<(u32, &'static [u8])>;

fn token(row: Option<&Row>) -> Token {
    row.and_then(|&row| leaf(row).map(|text| (row[1], text)))
}

/// "First and last token descend into the first and last child; an empty node there gives none": past the starts, and back past the finishes.
fn tokens(between: &[Row]) -> (Token, Token) {
    (token(between.iter().find(|row| row[0] != 0)), token(between.iter().rev().find(|row| row[0] != 2)))
}

/// What closes that which a token opens.
fn closer(opener: Token) -> Token {
    match opener {
        Some((15, br"\(")) => Some((16, br"\)")),
        Some((15, br"\[")) => Some((16, br"\]")),
        Some((14, b"$" | b"$$")) => opener,
        _ => None,
    }
}

fn expected(rows: &[Row], row: usize) -> [bool; 5] {
    let between = (row < rows.len()).then(|| inside(rows, row)).flatten().unwrap_or(&[]);
    let (first, last) = tokens(between);
    let display = matches!(first, Some((14, b"$$") | (15, br"\[")));
    let inline = matches!(first, Some((14, b"$") | (15, br"\(")));
    let valid = last.is_some() && closer(first) == last;
    // "the formula's first and last child must be different leaf rows that match as opener and closer"
    let whole = between.len() > 1 && {
        let last = token(between.last());
        last.is_some() && closer(token(between.first())) == last
    };
    let is_leaf = row < rows.len() && leaf(rows[row]).is_some();
    [display, inline, valid, whole, is_leaf]
}

/// Numbers at which tags, kinds and types end.
const ENDS: [u32; 8] = [0, 1, 2, 3, 43, 1 << 31, u32::MAX - 1, u32::MAX];

/// A row as formulas have them, and now and then any numbers. No question looks at the token, so that may be any number too.
fn any_row(numbers: &mut Numbers) -> Row {
    let mut any = || ENDS[numbers.below(8) as usize];
    let (token, row) = (any(), [0; TREE_ROW].map(|_| any()));
    if numbers.below(60) == 0 {
        return row;
    }
    match numbers.below(6) {
        0 => [0, 43, 0, 0, token],
        1 => [0, 1, 0, 0, token],
        2 | 3 => {
            // At place 0 a `$` or `$$`; at 5 one that begins with the text's last `$` or right behind it, and ends outside.
            let place = numbers.below(6);
            let kind = if place % 5 == 0 { 14 } else { 15 + numbers.below(2) };
            let (start, length) = match place {
                0 => (0, 1 + numbers.below(2)),
                5 => (11 + numbers.below(2), 2),
                _ => (place * 2, 2),
            };
            [1, kind, start, length, token]
        }
        _ => [2, 43, 0, 0, token],
    }
}

#[test]
fn any_rows() {
    let mut numbers = Numbers(0x9E37_79B9_7F4A_7C15);
    let mut yes = [0; 5];
    for _ in 0..200_000 {
        let mut tree: Vec<u32> = (0..numbers.below(7)).flat_map(|_| any_row(&mut numbers)).collect();
        // What is left over behind the last whole row is no row.
        tree.extend([0, 43, 0, 0].iter().take(numbers.below(TREE_ROW as u32) as usize));
        let rows = rows(&tree);
        for row in (0..=rows.len() + 1).chain([1 << 30, 1 << 32, usize::MAX / TREE_ROW, usize::MAX / TREE_ROW + 1, usize::MAX]) {
            let expected = expected(&rows, row);
            let asked = [is_display, is_inline, is_valid, is_whole, is_leaf].map(|question| question(TEXT, &tree, row));
            assert_eq!(asked, expected, "row {row} of {rows:?}");
            let part = if expected[4] { leaf(rows[row]).unwrap() } else { &TEXT[..0] };
            assert_eq!(leaf_text(TEXT, &tree, row).as_ptr_range(), part.as_ptr_range(), "row {row} of {rows:?}");
            yes.iter_mut().zip(expected).for_each(|(yes, expected)| *yes += usize::from(expected));
        }
    }
    println!("display, inline, valid, whole, leaf: {yes:?}");
    assert!(yes.iter().all(|&count| count > 0), "{yes:?}");
}
