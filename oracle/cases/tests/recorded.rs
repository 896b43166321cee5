//! The recorded list in the repository: how it is made, what it reaches, and that it
//! replays.

use std::collections::BTreeSet;
use std::path::Path;

use answers::with_deep_stack;
use cases::{read_list, recorded_list, write_list, Case, Counts, FULL_ROOM, MOST_BYTES, SEED};
use model::Slip;
use sheet::{Answer, Row, SHEET_BYTES, TREE_ROWS};

fn file() -> Vec<u8> {
    let data = Path::new(env!("CARGO_MANIFEST_DIR")).join("../../crates/cases/data");
    std::fs::read(data.join("cases.bin")).expect("the recorded list")
}

#[test]
fn the_same_seed_gives_the_same_bytes() {
    let made = || with_deep_stack(|| write_list(&recorded_list(SEED)));
    let first = made();
    assert!(first == made(), "two recordings differ");
    assert!(first == file(), "the file is not what its seed gives");
}

#[test]
fn it_replays_with_the_model() {
    for (number, case) in read_list(&file()).iter().enumerate() {
        let answer = model::answer(&case.tables, case.room as usize, None);
        assert_eq!(answer, case.answer, "case {number}");
    }
}

#[test]
fn its_bytes_are_within_their_limits() {
    let bytes = file();
    let cases = read_list(&bytes);
    assert!(bytes.len() <= MOST_BYTES && cases.len() >= 3_000);
    assert!(write_list(&cases) == bytes, "reading and writing again");
    for case in &cases {
        assert!(case.tables.sheet().len() <= SHEET_BYTES && case.room <= FULL_ROOM);
        assert!(write_list(std::slice::from_ref(case)).len() <= 65_536);
        if let Answer::Accepted { rows, .. } = &case.answer {
            assert!(rows.len() <= TREE_ROWS && rows.len() <= Row::room(case.room as usize));
        }
    }
}

#[test]
fn it_has_every_room_of_a_short_formula_and_one_number_less() {
    let is_script = |case: &&Case| case.tables.text == b"a_b" && case.tables.shapes.is_empty();
    let cases = read_list(&file());
    let rooms: BTreeSet<usize> = cases
        .iter()
        .filter(is_script)
        .map(|case| case.room as usize)
        .collect();
    let rows = 11;
    for rows in 1..=rows {
        let room = Row::WIDTH * rows;
        assert!(
            rooms.contains(&room) && rooms.contains(&(room - 1)),
            "{room}"
        );
    }
    assert!(rooms.contains(&0));
}

#[test]
fn it_reaches_every_kind_form_scope_and_refusal() {
    let counts = Counts::of(&read_list(&file()));
    assert_eq!(counts.token_kinds.len(), 38, "all kinds but 24 and 25");
    assert_eq!(
        counts.forms.len(),
        7 + 5 + 1,
        "two classes, and shapes not looked at"
    );
    assert_eq!(counts.scopes.len(), 8);
    assert_eq!(counts.reasons.len(), 3);
    let answers: Vec<&str> = counts.answers.keys().map(String::as_str).collect();
    let expected = [
        "accepted",
        "refused 5",
        "refused 6",
        "refused 7",
        "refused 8",
    ];
    assert_eq!(answers, expected);
}

#[test]
fn it_tells_every_slip() {
    let counts = Counts::of(&read_list(&file()));
    assert_eq!(
        counts.slips.len(),
        Slip::named().count(),
        "{:?}",
        counts.slips
    );
}

/// The kinds that the lexer makes.
fn kinds() -> impl Iterator<Item = u32> {
    (0..40).filter(|kind| !(24..=25).contains(kind))
}

#[test]
fn it_tells_every_answer_of_the_stop_table() {
    let cases = read_list(&file());
    let told = |slip| {
        let answer = |case: &Case| model::answer(&case.tables, case.room as usize, Some(slip));
        cases.iter().any(|case| answer(case) != case.answer)
    };
    let entries = (0..8).flat_map(|scope| kinds().map(move |kind| Slip::Stop { scope, kind }));
    let untold: Vec<Slip> = entries.filter(|&slip| !told(slip)).collect();
    assert_eq!(untold, []);
}
