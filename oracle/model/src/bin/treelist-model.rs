//! The program `treelist` as the model does it: reads a sheet from standard input and
//! prints the listing, so that any sheet can be given to both.

use std::io::{self, Read};

use sheet::{listing, Answer, Row, Tables, SHEET_BYTES, TREE_ROWS};

fn main() -> io::Result<()> {
    let mut sheet = Vec::new();
    io::stdin().read_to_end(&mut sheet)?;
    print!("{}", listing(&answer(&sheet)));
    Ok(())
}

fn answer(sheet: &[u8]) -> Answer {
    let whole = Some(sheet).filter(|sheet| sheet.len() <= SHEET_BYTES);
    match whole.and_then(Tables::of_sheet) {
        Some(tables) => model::answer(&tables, Row::WIDTH * TREE_ROWS, None),
        None => Answer::Refused {
            number: 9,
            place: 0,
        },
    }
}
