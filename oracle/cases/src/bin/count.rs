//! Prints what a recorded list reaches: `count cases.bin`.

use std::error::Error;

use cases::{read_list, Counts};

fn main() -> Result<(), Box<dyn Error>> {
    let file = std::env::args().nth(1).ok_or("usage: count FILE")?;
    print!("{}", Counts::of(&read_list(&std::fs::read(file)?)));
    Ok(())
}
