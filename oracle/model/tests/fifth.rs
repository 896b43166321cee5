//! The fifth number of a row, on tables written by hand.

use model::{answer, Slip};
use sheet::{Answer, Row, Tables};

const BLANK: u32 = 1;
const AMPERSAND: u32 = 12;
const UNDERSCORE: u32 = 20;
const WORD: u32 = 21;
const GENERIC: u32 = 26;
const IF_FALSE: u32 = 33;
const END_IF: u32 = 37;

const FIXED_2: [u32; 3] = [1, 1, 2];
const INFIX: [u32; 3] = [1, 6, 0];

/// Tables whose tokens lie one behind the other, by kind and length. Commands have the
/// first shape.
fn tables(text: &str, tokens: &[(u32, u32)], shape: [u32; 3]) -> Tables {
    let mut start = 0;
    let mut rows = Vec::new();
    for &(kind, len) in tokens {
        rows.extend([kind, start, len, u32::from(kind == GENERIC)]);
        start += len;
    }
    assert_eq!(text.len(), start as usize, "tokens cover the text");
    Tables {
        text: text.into(),
        tokens: rows,
        shapes: shape.to_vec(),
        states: vec![],
    }
}

fn script() -> Tables {
    tables("a_b", &[(WORD, 1), (UNDERSCORE, 1), (WORD, 1)], FIXED_2)
}

fn infix() -> Tables {
    let tokens = [(WORD, 1), (GENERIC, 2), (BLANK, 1), (WORD, 1)];
    tables("x\\o y", &tokens, INFIX)
}

fn word_in_two() -> Tables {
    tables("\\f xy", &[(GENERIC, 2), (BLANK, 1), (WORD, 2)], FIXED_2)
}

fn blank_left() -> Tables {
    let tokens = [
        (GENERIC, 2),
        (BLANK, 1),
        (WORD, 1),
        (BLANK, 1),
        (AMPERSAND, 1),
    ];
    tables("\\f x &", &tokens, FIXED_2)
}

fn skipped() -> Tables {
    let tokens = [(WORD, 1), (IF_FALSE, 8), (WORD, 1), (END_IF, 3), (WORD, 1)];
    tables("a\\iffalse1\\fib", &tokens, FIXED_2)
}

fn rows(tables: &Tables, slip: Option<Slip>) -> Vec<Row> {
    match answer(tables, 200, slip) {
        Answer::Accepted { rows, .. } => rows,
        refused => panic!("{refused:?}"),
    }
}

fn fifth(tables: &Tables, slip: Option<Slip>) -> Vec<u32> {
    rows(tables, slip).iter().map(|row| row.token).collect()
}

#[test]
fn in_row_order() {
    let no_slip = |tables: &Tables| fifth(tables, None);
    assert_eq!(no_slip(&script()), [0, 1, 1, 0, 0, 1, 1, 1, 2, 3, 3]);
    assert_eq!(
        no_slip(&infix()),
        [0, 1, 1, 0, 0, 1, 1, 1, 2, 2, 3, 3, 4, 4, 4, 4]
    );
    assert_eq!(no_slip(&word_in_two()), [0, 0, 0, 2, 2, 2, 2, 2, 3, 3, 3]);
    assert_eq!(no_slip(&blank_left()), [0, 0, 0, 2, 2, 3, 4, 3, 4, 5]);
    assert_eq!(no_slip(&skipped()), [0, 0, 0, 1, 1, 2, 4, 4, 4, 5, 5]);
}

#[test]
fn of_every_row_but_a_held_leaf_it_is_the_place_of_a_refusal_there() {
    for tables in [script(), infix(), word_in_two(), blank_left(), skipped()] {
        let mut places = Vec::new();
        while let Answer::Refused { number, place } =
            answer(&tables, Row::numbers_for(places.len()), None)
        {
            assert_eq!(number, 8);
            places.push(place);
        }
        let mut tokens = fifth(&tables, None);
        if tables == blank_left() {
            tokens[7] = 4;
        }
        // A wrap's rows are made later than they stand.
        places.sort_unstable();
        tokens.sort_unstable();
        assert_eq!(tokens, places);
    }
}

#[test]
fn a_slip_changes_nothing_but_the_fifth_number() {
    let of_slip = |slip| match slip {
        Slip::HeldHasPlace => (blank_left(), vec![0, 0, 0, 2, 2, 3, 4, 4, 4, 5]),
        Slip::WrapHasFirstLeaf => (script(), vec![0, 1, 0, 0, 0, 1, 1, 1, 2, 3, 3]),
        Slip::FinishHasNext => (script(), vec![0, 1, 1, 0, 0, 2, 2, 1, 2, 4, 4]),
        Slip::SkippedHasNext => (skipped(), vec![0, 0, 0, 1, 2, 2, 4, 4, 4, 5, 5]),
        other => panic!("{other:?} is in another number"),
    };
    let four = |row: &Row| (row.tag, row.kind, row.start, row.len);
    for slip in Slip::FIFTH_NUMBER {
        let (tables, wrong) = of_slip(slip);
        assert_eq!(fifth(&tables, Some(slip)), wrong, "{slip:?}");
        let slipped = rows(&tables, Some(slip));
        assert!(slipped
            .iter()
            .map(four)
            .eq(rows(&tables, None).iter().map(four)));
    }
}
