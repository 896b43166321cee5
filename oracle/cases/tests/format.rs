//! The bytes of a recorded case, as the page beside the list has them.

use cases::{read_list, write_list, Case};
use sheet::{Answer, Dropped, Row, Tables, FINISH, START};

fn case(answer: Answer) -> Case {
    Case {
        tables: Tables::default(),
        room: 0x0102_0304,
        answer,
    }
}

/// The bytes of a case behind its length, its sheet and its room.
fn answer_bytes(case: Case) -> Vec<u8> {
    let sheet = case.tables.sheet().len();
    let bytes = write_list(std::slice::from_ref(&case));
    let head = 4 + 4 + sheet;
    assert_eq!(bytes[head..head + 4], [1, 2, 3, 4], "the room");
    assert_eq!(read_list(&bytes), [case]);
    bytes[head + 4..].to_vec()
}

#[test]
fn a_row_has_three_bytes_or_seven() {
    let accepted = answer_bytes(case(Answer::Accepted {
        rows: vec![
            Row::edge(START, 44, 0x0506),
            Row::leaf(13, 0x0708, 0x090a, 0x0b0c),
            Row::edge(FINISH, 44, 16_384),
        ],
        dropped: vec![Dropped {
            token: 0x0d0e,
            reason: 3,
            leaves: 0x0f10,
        }],
    }));
    let counts = [0, 0, 0, 0, 0, 0, 0, 3, 0, 0, 0, 1];
    let rows = [&[44, 5, 6][..], &[64 + 13, 11, 12, 7, 8, 9, 10]];
    let end = [&[128 + 44, 64, 0][..], &[13, 14, 3, 0, 0, 15, 16]];
    assert_eq!(
        accepted,
        [&counts[..], &rows.concat(), &end.concat()].concat()
    );
}

#[test]
fn a_refusal_has_its_number_and_its_place() {
    let refused = answer_bytes(case(Answer::Refused {
        number: 8,
        place: 0x0102,
    }));
    assert_eq!(refused, [0, 0, 0, 8, 0, 0, 1, 2]);
}
