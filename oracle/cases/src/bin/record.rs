//! Writes the recorded list: `record FOLDER [SEED]` makes cases.bin and formulas.md.

use std::error::Error;
use std::fmt::Write;
use std::path::Path;

use answers::with_deep_stack;
use cases::{
    comment_formulas, paper_formulas, recorded_list, used_shapes, write_list, Formula, MOST_BYTES,
    SEED,
};

fn main() -> Result<(), Box<dyn Error>> {
    let mut words = std::env::args().skip(1);
    let folder = words.next().ok_or("usage: record FOLDER [SEED]")?;
    let seed = words.next().map_or(Ok(SEED), |seed| seed.parse())?;
    let cases = with_deep_stack(move || recorded_list(seed));
    let bytes = write_list(&cases);
    let fits = bytes.len() <= MOST_BYTES;
    assert!(fits, "{} bytes are too many", bytes.len());
    std::fs::write(Path::new(&folder).join("cases.bin"), &bytes)?;
    std::fs::write(Path::new(&folder).join("formulas.md"), formulas())?;
    println!("recorded {} cases, {} bytes", cases.len(), bytes.len());
    Ok(())
}

/// The table of the named formulas, which stand first in the list.
fn formulas() -> String {
    let mut page = String::from(
        "# The named cases\n\nThe first cases of `cases.bin`, by their number from 0. \
         `./oracle/record` writes this page.\n",
    );
    let paper = paper_formulas();
    table(
        &mut page,
        "Formulas of document 01",
        "What is said",
        0,
        &paper,
    );
    let comments = comment_formulas();
    table(
        &mut page,
        "Formulas in comments of the Rust",
        "File",
        paper.len(),
        &comments,
    );
    page
}

fn table(page: &mut String, title: &str, column: &str, first: usize, formulas: &[Formula]) {
    let head =
        format!("\n## {title}\n\n| Case | Formula | Shapes | {column} |\n|---|---|---|---|\n");
    page.push_str(&head);
    for (number, formula) in (first..).zip(formulas) {
        let text = shortened(&formula.text);
        let shapes = shapes(formula);
        writeln!(page, "| {number} | {text} | {shapes} | {} |", formula.said).expect("a String");
    }
}

/// The shapes that the formula uses. Its table may hold more.
fn shapes(formula: &Formula) -> String {
    let used = used_shapes(&formula.text, &formula.spec()).expect("a named formula has tokens");
    match used.shapes.len() {
        0 => String::new(),
        _ => code(&used.to_string()),
    }
}

fn shortened(text: &str) -> String {
    match text.chars().count() {
        0 => "nothing".to_owned(),
        1..=70 => code(text),
        count => {
            let head: String = text.chars().take(8).collect();
            format!("{} and so on, {count} characters", code(&head))
        }
    }
}

fn code(text: &str) -> String {
    format!("` {text} `")
}
