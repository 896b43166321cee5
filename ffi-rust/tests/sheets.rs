//! Sheets through the library: the samples of examples/, damaged ones, and listings with and without room.
mod guarded;

use cartglaze::{list, read, Answer, Listed, Sheet, Tables, SHEET_NUMBERS, TREE_ROW};
use guarded::{guarded, lend, lend_numbers, refused, BEFORE};
use std::path::{Path, PathBuf};

fn examples() -> PathBuf {
    Path::new(env!("CARGO_MANIFEST_DIR")).join("../examples")
}

fn sample(name: &str) -> Vec<u8> {
    std::fs::read(examples().join(name)).unwrap()
}

/// What a sheet comes to, with the tables' numbers as lists of their own.
#[derive(Debug, PartialEq)]
enum Found {
    Read { text: Vec<u8>, tokens: Vec<u32>, shapes: Vec<u32>, states: Vec<u32> },
    Refused,
    NoRoom(usize),
}

/// Reads a sheet into so many numbers, and holds what the numbers are afterwards to what was found.
fn read_in(sheet: &[u8], room: usize) -> Found {
    let (found, after) = lend_numbers(room, |numbers| match read(sheet, numbers) {
        Sheet::Read(Tables { text, tokens, shapes, states }) => {
            Found::Read { text: text.to_vec(), tokens: tokens.to_vec(), shapes: shapes.to_vec(), states: states.to_vec() }
        }
        Sheet::Refused => Found::Refused,
        Sheet::NoRoom { needed } => Found::NoRoom(needed),
    });
    let mut expected = match &found {
        Found::Read { tokens, shapes, states, .. } => [&tokens[..], shapes, states].concat(),
        _ => Vec::new(),
    };
    expected.resize(room, BEFORE);
    assert_eq!(after, expected, "{found:?}");
    found
}

/// Document 01's format, read section by section: the tables, or none.
fn tables_of(sheet: &[u8]) -> Option<[Vec<u8>; 4]> {
    let (version, mut rest) = sheet.split_first()?;
    let mut sections = Vec::new();
    for _ in 0..4 {
        let (length, behind) = rest.split_first_chunk::<4>()?;
        let (bytes, behind) = behind.split_at_checked(u32::from_be_bytes(*length) as usize)?;
        sections.push(bytes.to_vec());
        rest = behind;
    }
    let whole = sections[1..].iter().all(|bytes| bytes.len() % 4 == 0);
    (sheet.len() <= 32_768 && *version == 1 && rest.is_empty() && whole).then(|| sections.try_into().unwrap())
}

fn expected_of(sheet: &[u8]) -> Found {
    let numbers = |bytes: &[u8]| bytes.chunks(4).map(|number| u32::from_be_bytes(number.try_into().unwrap())).collect();
    match tables_of(sheet) {
        Some([text, tokens, shapes, states]) => Found::Read { text, tokens: numbers(&tokens), shapes: numbers(&shapes), states: numbers(&states) },
        None => Found::Refused,
    }
}

/// The tree rows and the dropped rows that `treelist` has room for.
const TREE_ROWS: usize = 3_276;
const DROPPED_ROWS: usize = 2_048;

/// What `treelist` prints for a sheet, in buffers as large as its own.
fn printed(sheet: &[u8]) -> Vec<u8> {
    let (answer, tree, dropped) = match read_in(sheet, SHEET_NUMBERS) {
        Found::Read { text, tokens, shapes, states } => {
            guarded(Tables { text: &text, tokens: &tokens, shapes: &shapes, states: &states }, TREE_ROWS * TREE_ROW, DROPPED_ROWS * 3)
        }
        Found::Refused => (refused(9, 0), vec![], vec![]),
        Found::NoRoom(needed) => panic!("{needed} numbers"),
    };
    let (listed, mut lines) = lend(262_144, b'?', b'!', |out| list(answer, &tree, &dropped, out));
    let Listed::Bytes { length } = listed else { panic!("{listed:?}") };
    assert!(lines[length..].iter().all(|&byte| byte == b'?'));
    lines.truncate(length);
    lines
}

#[test]
fn samples() {
    let mut count = 0;
    for entry in std::fs::read_dir(examples()).unwrap() {
        let path = entry.unwrap().path();
        if path.extension().is_some_and(|extension| extension == "sheet") {
            let lines = std::fs::read(path.with_extension("txt")).unwrap();
            assert_eq!(String::from_utf8(printed(&std::fs::read(&path).unwrap())).unwrap(), String::from_utf8(lines).unwrap(), "{path:?}");
            count += 1;
        }
    }
    println!("{count} sheets");
    assert!(count >= 51);
}

/// Refusals 5 to 8 by the samples, whose buffers `guarded` holds to zeros.
#[test]
fn refused_while_reading() {
    for (name, line) in [
        ("greedy-environment.sheet", "refused 5 1\n"),
        ("mark-before-node.sheet", "refused 6 7\n"),
        ("128-braces.sheet", "refused 7 127\n"),
        ("no-room.sheet", "refused 8 1093\n"),
    ] {
        assert_eq!(String::from_utf8(printed(&sample(name))).unwrap(), line, "{name}");
    }
    let Found::Read { text, tokens, shapes, states } = read_in(&sample("script.sheet"), SHEET_NUMBERS) else { panic!() };
    for room in 0..60 {
        let answer = guarded(Tables { text: &text, tokens: &tokens, shapes: &shapes, states: &states }, room, tokens.len()).0;
        assert_eq!(matches!(answer, Answer::Accepted { rows: 11, dropped: 0 }), room >= 55, "{room} numbers");
        assert!(room >= 55 || matches!(answer, Answer::Refused { number: 8, .. }), "{room} numbers");
    }
}

#[test]
fn every_cut_and_every_byte() {
    let sheet = sample("frac.sheet");
    let (mut reads, mut refusals) = (0, 0);
    let mut agrees = |sheet: &[u8]| {
        let found = read_in(sheet, SHEET_NUMBERS);
        assert_eq!(found, expected_of(sheet), "{sheet:x?}");
        printed(sheet);
        *if found == Found::Refused { &mut refusals } else { &mut reads } += 1;
    };
    for length in 0..sheet.len() {
        agrees(&sheet[..length]);
    }
    for at in 0..sheet.len() {
        // What a sheet asks of a byte, its bounds, and each bit of it.
        for byte in [0, 1, 2, 3, 4, 127, 128, 254, 255].into_iter().chain((0..8).map(|bit| sheet[at] ^ 1 << bit)) {
            let mut sheet = sheet.clone();
            sheet[at] = byte;
            agrees(&sheet);
        }
    }
    println!("{reads} read, {refusals} refused");
    assert!(reads > 0 && refusals > 0);
}

/// Lengths that claim from nothing to 4 GiB, in every section of an empty sheet and of one with a row in each.
#[test]
fn claims() {
    let claims = (0..=20).chain([32_751, 32_752, 65_535, 1 << 24, 1 << 31, u32::MAX - 16, u32::MAX - 12, u32::MAX - 3, u32::MAX]);
    let rows = [&[1, 0, 0, 0, 4][..], b"abcd", &16u32.to_be_bytes(), &[0; 16], &12u32.to_be_bytes(), &[0; 12], &12u32.to_be_bytes(), &[0; 12]].concat();
    let nothing = [&[1][..], &[0; 16]].concat();
    for (sheet, places) in [(nothing, [1, 5, 9, 13]), (rows, [1, 9, 29, 45])] {
        for (at, claim) in places.into_iter().flat_map(|at| claims.clone().map(move |claim| (at, claim))) {
            let mut sheet = sheet.clone();
            sheet[at..at + 4].copy_from_slice(&claim.to_be_bytes());
            assert_eq!(read_in(&sheet, SHEET_NUMBERS), expected_of(&sheet), "{claim} at {at}");
        }
    }
}

/// The largest sheet, in text and in numbers, and one byte more.
#[test]
fn largest() {
    for (size, section) in [(32_768, 1), (32_769, 1), (32_765, 5), (32_769, 5)] {
        let mut sheet = vec![0; size];
        sheet[0] = 1;
        sheet[section..section + 4].copy_from_slice(&(size as u32 - 17).to_be_bytes());
        assert_eq!(read_in(&sheet, SHEET_NUMBERS), expected_of(&sheet), "{size} bytes");
        assert_eq!(read_in(&sheet, SHEET_NUMBERS) == Found::Refused, size > 32_768);
    }
}

#[test]
fn room_for_numbers() {
    let sheet = sample("frac.sheet");
    for room in 0..30 {
        // Five tokens and a shape.
        assert_eq!(read_in(&sheet, room), if room < 23 { Found::NoRoom(23) } else { expected_of(&sheet) }, "{room} numbers");
        assert_eq!(read_in(&sheet[1..], room), Found::Refused);
    }
}

fn listed(answer: Answer, tree: &[u32], dropped: &[u32], room: usize) -> (Listed, String) {
    let (listed, out) = lend(room, b'?', b'!', |out| list(answer, tree, dropped, out));
    (listed, String::from_utf8(out).unwrap())
}

#[test]
fn room_for_lines() {
    let (tree, dropped) = ([0, 44, 0, 0, 0, 1, 13, 6, 1, 2, 2, 44, 0, 0, 3], [1, 1, 1]);
    let lines = "ok 3 1\n0 44 0\n1 13 6 1 2\nd 1 1 1\n";
    let answer = Answer::Accepted { rows: 3, dropped: 1 };
    for room in 0..40_usize {
        let expected = match room.checked_sub(lines.len()) {
            None => (Listed::NoRoom { needed: lines.len() }, "?".repeat(room)),
            Some(more) => (Listed::Bytes { length: lines.len() }, lines.to_string() + &"?".repeat(more)),
        };
        assert_eq!(listed(answer, &tree, &dropped, room), expected);
    }
}

/// Any numbers for rows, counts and refusals.
#[test]
fn any_rows() {
    let max = u32::MAX;
    let all = Answer::Accepted { rows: usize::MAX, dropped: usize::MAX };
    let big = "18446744073709551615";
    // A row and four numbers of another; a finish where nothing is open, two tags over 2, a start and a leaf.
    let cut = [1, max, max, max, max, 1, 7, 7, 7];
    let any = [[2, 0, 0, 0, 1], [3, 1, 1, 1, 1], [max, 1, 1, 1, 1], [0, 5, 9, 9, max], [1, 6, 7, 8, 9]].concat();
    for (answer, tree, dropped, lines) in [
        (all, &[][..], &[][..], format!("ok {big} {big}\n")),
        (all, &cut, &[max, max, max, 8, 8], format!("ok {big} {big}\n0 {max} {max} {max} {max}\nd {max} {max} {max}\n")),
        (all, &any, &[], format!("ok {big} {big}\n0 5 {max}\n1 6 7 8 9\n")),
        (Answer::Accepted { rows: 1, dropped: 0 }, &[0, 1, 0, 0, 3, 0, 2, 0, 0, 4], &[1, 2, 3], "ok 1 0\n0 1 3\n".to_string()),
        (refused(0, usize::MAX), &[0, 1, 0, 0, 0], &[1, 2, 3], format!("refused 0 {big}\n")),
        (refused(max as usize - 1, 0), &[], &[], "refused 4294967294 0\n".to_string()),
        (refused(max as usize + 1, 0), &[], &[], "refused 4294967295 0\n".to_string()),
        (refused(usize::MAX, 0), &[], &[], "refused 4294967295 0\n".to_string()),
    ] {
        let length = lines.len();
        assert_eq!(listed(answer, tree, dropped, length), (Listed::Bytes { length }, lines));
    }
}
