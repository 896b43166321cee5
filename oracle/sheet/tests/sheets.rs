//! Sheets that are whole, and sheets that are not.

use sheet::Tables;

fn tables() -> Tables {
    Tables {
        text: b"\\f".to_vec(),
        tokens: vec![26, 0, 2, 1],
        shapes: vec![1, 4, 1],
        states: vec![0x0102_0304, 0, 1],
    }
}

#[test]
fn a_sheet_reads_back() {
    assert_eq!(Tables::of_sheet(&tables().sheet()), Some(tables()));
    let empty = Tables::default();
    assert_eq!(empty.sheet(), [&[1][..], &[0; 16]].concat());
    assert_eq!(Tables::of_sheet(&empty.sheet()), Some(empty));
}

#[test]
fn numbers_are_big_endian() {
    let sheet = tables().sheet();
    let states = &sheet[sheet.len() - 12..];
    assert_eq!(states, [1, 2, 3, 4, 0, 0, 0, 0, 0, 0, 0, 1]);
}

#[test]
fn a_sheet_that_is_not_whole_has_no_tables() {
    let sheet = tables().sheet();
    for len in 0..sheet.len() {
        assert_eq!(Tables::of_sheet(&sheet[..len]), None, "{len} bytes");
    }
    assert_eq!(Tables::of_sheet(&[&sheet[..], &[0]].concat()), None);
    let mut other = sheet.clone();
    other[0] = 2;
    assert_eq!(Tables::of_sheet(&other), None, "another version");
}

#[test]
fn a_table_of_cut_numbers_has_no_tables() {
    let mut sheet = vec![1, 0, 0, 0, 0, 0, 0, 0, 5];
    sheet.extend([0; 5 + 8]);
    assert_eq!(Tables::of_sheet(&sheet), None);
}
