//! Holds the proved tokeniser against the repository's lexer: `lex CASES SEED`. All texts of
//! up to three bytes are among the cases, however few are asked for.

use std::process::ExitCode;

use lex::{texts, Held, Tally, SHORT};

fn main() -> ExitCode {
    let words: Vec<String> = std::env::args().skip(1).collect();
    let words: Vec<Option<u64>> = words.iter().map(|word| word.parse().ok()).collect();
    let [Some(count), Some(seed)] = words[..] else {
        eprintln!("usage: lex CASES SEED");
        return ExitCode::FAILURE;
    };
    let tally = compare((count as usize).max(SHORT), seed);
    println!("{tally}");
    ExitCode::from(u8::from(tally.differ > 0))
}

fn compare(count: usize, seed: u64) -> Tally {
    let mut tally = Tally::default();
    let mut texts = texts(seed);
    while tally.texts < count {
        let (text, nameless) = texts.next().expect("texts without end");
        tally.text(&text, nameless, Held::PORT);
    }
    tally
}
