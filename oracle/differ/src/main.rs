//! Holds the proved library against the real Rust: `differ CASES SEED`.

use std::process::ExitCode;

use answers::with_deep_stack;
use cases::dice::Dice;
use differ::{formulas, Held, Tally};

fn main() -> ExitCode {
    let words: Vec<String> = std::env::args().skip(1).collect();
    let words: Vec<Option<u64>> = words.iter().map(|word| word.parse().ok()).collect();
    let [Some(count), Some(seed)] = words[..] else {
        eprintln!("usage: differ CASES SEED");
        return ExitCode::FAILURE;
    };
    let tally = with_deep_stack(move || compare(count as usize, seed));
    println!("{tally}");
    ExitCode::from(u8::from(tally.differ > 0))
}

fn compare(count: usize, seed: u64) -> Tally {
    let mut tally = Tally::default();
    let mut dice = Dice::new(!seed);
    let mut formulas = formulas(count, seed);
    while tally.cases < count {
        let (text, spec) = formulas.next().expect("formulas without end");
        tally.formula(&text, &spec, &mut dice, Held::PORT);
    }
    tally
}
