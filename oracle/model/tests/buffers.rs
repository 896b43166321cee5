//! What the model does with tables that no lexer makes, and what it leaves in the
//! lent buffers.

use model::run;
use sheet::{Refusal, Row, Tables};

const MARK: u32 = 77;

/// The refusal of a run over marked buffers, and whether it wrote to them.
fn refusal(tables: &Tables, dropped: usize) -> (u32, usize) {
    let mut tree = vec![MARK; 64];
    let mut lent = vec![MARK; dropped];
    let Refusal { number, place } = run(tables, &mut tree, &mut lent, None).expect_err("a refusal");
    let left = if number <= 4 { MARK } else { 0 };
    assert!(
        tree.iter().chain(&lent).all(|&n| n == left),
        "refusal {number}"
    );
    (number, place)
}

fn tables(text: &[u8], tokens: &[u32], shapes: &[u32], states: &[u32]) -> Tables {
    Tables {
        text: text.to_vec(),
        tokens: tokens.to_vec(),
        shapes: shapes.to_vec(),
        states: states.to_vec(),
    }
}

#[test]
fn sizes_are_refused_first() {
    let long = vec![b' '; 65_536];
    assert_eq!(refusal(&tables(&long, &[], &[], &[]), 0), (1, 0));
    assert_eq!(refusal(&tables(b"", &[1, 0, 0], &[], &[]), 9), (1, 0));
    assert_eq!(refusal(&tables(b"", &[], &[1], &[]), 9), (1, 0));
    assert_eq!(refusal(&tables(b"", &[], &[], &[0, 0]), 9), (1, 0));
    assert_eq!(
        refusal(&tables(b"", &[99; 4 * 16_385], &[], &[]), 0),
        (1, 0)
    );
    assert_eq!(refusal(&tables(b"", &[], &[0; 3 * 4_097], &[]), 0), (1, 0));
    assert_eq!(refusal(&tables(b"", &[], &[], &[0; 3 * 4_097]), 0), (1, 0));
}

#[test]
fn a_short_dropped_buffer_is_refused_second() {
    assert_eq!(refusal(&tables(b"", &[99, 0, 0, 0], &[], &[]), 2), (2, 0));
}

#[test]
fn token_rows_are_refused_third() {
    let fine = [1, 0, 1, 0];
    let third = |bad: [u32; 4], text: &[u8]| {
        let tokens = [fine, bad].concat();
        refusal(&tables(text, &tokens, &[9, 9, 9], &[]), 6)
    };
    assert_eq!(third([40, 0, 0, 0], b" "), (3, 1));
    assert_eq!(third([1, 1, 1, 0], b" "), (3, 1));
    assert_eq!(third([1, u32::MAX, 2, 0], b" "), (3, 1));
    assert_eq!(third([1, 0, 0, 2], b" "), (3, 1));
    assert_eq!(third([21, 0, 0, 0], b" "), (3, 1));
    assert_eq!(third([21, 1, 3, 0], b" \xed\xa0\x80"), (3, 1));
    assert_eq!(third([21, 1, 2, 0], b" \xc0\x80"), (3, 1));
    assert_eq!(third([21, 1, 1, 0], " é".as_bytes()), (3, 1));
}

#[test]
fn shape_and_state_rows_are_refused_fourth() {
    let fourth = |shape: [u32; 3]| {
        let shapes = [[1, 0, 0], shape].concat();
        refusal(&tables(b"", &[], &shapes, &[0, 0, 9]), 0)
    };
    for shape in [
        [0, 0, 0],
        [3, 0, 0],
        [1, 7, 0],
        [1, 0, 1],
        [1, 1, 256],
        [1, 2, 256],
        [1, 3, 1],
        [1, 4, 0],
        [1, 4, 2],
        [1, 5, 1],
        [2, 5, 0],
        [2, 6, 0],
    ] {
        assert_eq!(fourth(shape), (4, 1), "{shape:?}");
    }
    for shape in [[1, 4, 1], [2, 4, 1], [2, 3, 0], [1, 6, 0], [1, 1, 255]] {
        assert_eq!(fourth(shape), (4, 2), "{shape:?}: the state is at fault");
    }
}

#[test]
fn later_refusals_leave_zeros() {
    let greedy = tables(b"h", &[27, 0, 1, 1], &[2, 3, 0], &[]);
    assert_eq!(refusal(&greedy, 5), (5, 1));
}

#[test]
fn one_brace_over_the_limit_is_refused_before_reading() {
    let braces = |count: usize| {
        let tokens: Vec<u32> = (0..count as u32).flat_map(|at| [3, at, 1, 0]).collect();
        refusal(&tables(&vec![b'{'; count], &tokens, &[], &[]), 3 * count)
    };
    assert_eq!(braces(16_385), (1, 0));
    assert_ne!(braces(16_384), (1, 0));
}

#[test]
fn nine_numbers_hold_one_row_of_two() {
    let mut tree = [MARK; 9];
    let refusal = run(&Tables::default(), &mut tree, &mut [], None).expect_err("a refusal");
    assert_eq!((refusal.number, refusal.place, tree), (8, 0, [0; 9]));
}

#[test]
fn success_keeps_what_later_elements_held() {
    let mut tree = [MARK; 22];
    let mut dropped = [MARK; 7];
    let comment = tables(b"\\iffalse", &[33, 0, 8, 0], &[], &[]);
    let counts = run(&comment, &mut tree, &mut dropped, None).expect("accepted");
    assert_eq!((counts.rows, counts.dropped), (4, 1));
    let rows = [
        [0, 44, 0, 0, 0],
        [0, 40, 0, 0, 0],
        [2, 40, 0, 0, 1],
        [2, 44, 0, 0, 1],
    ]
    .concat();
    assert_eq!((&tree[..20], &tree[20..]), (&rows[..], &[MARK; 2][..]));
    assert_eq!(dropped, [0, 2, 0, MARK, MARK, MARK, MARK]);
}

#[test]
fn kinds_that_no_lexer_makes() {
    let rows = |kind: u32| {
        let mut tree = [0; 64];
        let made = tables(b"x", &[kind, 0, 1, 0], &[], &[]);
        let counts = run(&made, &mut tree, &mut [0; 3], None).expect("accepted");
        tree[Row::WIDTH..Row::WIDTH * (counts.rows - 1)].to_vec()
    };
    assert_eq!(rows(24), [1, 0, 0, 1, 0]);
    let error = [[0, 0, 0, 0, 0], [1, 13, 0, 1, 0], [2, 0, 0, 0, 1]];
    assert_eq!(rows(25), error.concat());
}
