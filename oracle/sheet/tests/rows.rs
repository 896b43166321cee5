//! Rows of five numbers, and their lines.

use sheet::{listing, Answer, Counts, Dropped, Row, FINISH, LEAF, START};

/// Three rows whose numbers all differ where they may.
const TREE: [u32; 15] = [START, 44, 0, 0, 7, LEAF, 13, 3, 2, 8, FINISH, 44, 0, 0, 9];

#[test]
fn rows_are_read_and_written_in_one_order() {
    let rows: Vec<Row> = TREE.chunks(Row::WIDTH).map(Row::of).collect();
    let expected = [
        Row::edge(START, 44, 7),
        Row::leaf(13, 3, 2, 8),
        Row::edge(FINISH, 44, 9),
    ];
    assert_eq!(rows, expected);
    let numbers: Vec<u32> = rows.into_iter().flat_map(Row::numbers).collect();
    assert_eq!(numbers, TREE);
}

#[test]
fn an_answer_has_as_many_rows_as_were_counted() {
    let counts = Counts {
        rows: 2,
        dropped: 0,
    };
    let Answer::Accepted { rows, dropped } = Answer::of(Ok(counts), &TREE, &[1, 1, 1]) else {
        panic!("accepted");
    };
    assert_eq!((rows.len(), rows[1].token, dropped), (2, 8, vec![]));
}

#[test]
fn room_is_rounded_down() {
    let rooms = [0, 4, 5, 9, 10, 54, 55].map(Row::room);
    assert_eq!(rooms, [0, 0, 1, 1, 2, 10, 11]);
    for rows in 0..20 {
        assert_eq!(Row::room(Row::numbers_for(rows)), rows);
    }
}

#[test]
fn the_token_stands_last_on_the_lines_of_starts_and_leaves() {
    let answer = Answer::Accepted {
        rows: TREE.chunks(Row::WIDTH).map(Row::of).collect(),
        dropped: vec![Dropped::of(&[4, 1, 5])],
    };
    assert_eq!(listing(&answer), "ok 3 1\n0 44 7\n1 13 3 2 8\nd 4 1 5\n");
}
