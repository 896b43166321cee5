//! Holds the model of document 01 against the Rust.
//!
//! `compare sequences LENGTH` takes all sequences of parts of that length, `compare
//! chance COUNT MOST [SEED]` formulas by chance of up to so many parts, `compare limits`
//! formulas around 128 nodes and 255 arguments. Each formula is compared at full room
//! and at one smaller room; short ones at every room. A difference is printed with the
//! smallest input that still shows it.

use std::fmt;
use std::process::ExitCode;

use answers::{with_deep_stack, Fault, Run, Spec};
use cases::dice::Dice;
use cases::{all_sequences, around_limits, by_chance, smallest, usual};
use sheet::Row;

#[derive(Default)]
struct Tally {
    formulas: usize,
    tokens: usize,
    longest: usize,
    answers: usize,
    lexer_panics: usize,
    differences: usize,
}

impl fmt::Display for Tally {
    fn fmt(&self, f: &mut fmt::Formatter<'_>) -> fmt::Result {
        write!(f, "{} formulas, {} tokens, ", self.formulas, self.tokens)?;
        write!(f, "at most {} in one, ", self.longest)?;
        write!(
            f,
            "{} answers, {} differences",
            self.answers, self.differences
        )?;
        write!(f, "; the lexer panicked on {} more", self.lexer_panics)
    }
}

fn main() -> ExitCode {
    let words: Vec<String> = std::env::args().skip(1).collect();
    let words: Vec<&str> = words.iter().map(String::as_str).collect();
    let Some(formulas) = formulas(&words) else {
        eprintln!("usage: compare sequences LENGTH | chance COUNT MOST [SEED] | limits");
        return ExitCode::FAILURE;
    };
    let tally = with_deep_stack(|| compare(formulas));
    println!("{tally}");
    ExitCode::from(u8::from(tally.differences > 0))
}

type Formulas = Box<dyn Iterator<Item = (String, Spec)> + Send>;

fn formulas(words: &[&str]) -> Option<Formulas> {
    match words {
        ["sequences", length] => {
            let texts = all_sequences(length.parse().ok()?);
            Some(Box::new(texts.map(|text| (text, usual()))))
        }
        ["chance", count, most, seed @ ..] => {
            let count: usize = count.parse().ok()?;
            let most = most.parse().ok()?;
            let mut dice = Dice::new(seed.first().unwrap_or(&"1").parse().ok()?);
            Some(Box::new(
                (0..count).map(move |_| by_chance(&mut dice, most)),
            ))
        }
        ["limits"] => Some(Box::new(around_limits().into_iter())),
        _ => None,
    }
}

fn compare(formulas: Formulas) -> Tally {
    let mut tally = Tally::default();
    let mut dice = Dice::new(0);
    for (text, spec) in formulas {
        tally.formula(&text, &spec, &mut dice);
    }
    tally
}

/// Up to this many rows, every room is compared.
const SHORT: usize = 40;

impl Tally {
    fn formula(&mut self, text: &str, spec: &Spec, dice: &mut Dice) {
        let run = match Run::of(text, spec) {
            Ok(run) => run,
            Err(Fault::Lexer(_)) => {
                self.lexer_panics += 1;
                return;
            }
            Err(fault) => panic!("{text:?}: {fault}"),
        };
        self.formulas += 1;
        self.tokens += run.tables.token_count();
        self.longest = self.longest.max(run.tables.token_count());
        let rows = run.writes.len();
        let smaller = match rows {
            0..=SHORT => (0..rows).collect(),
            _ => vec![dice.below(rows)],
        };
        for room in smaller.into_iter().chain([rows, rows + 1]) {
            self.answers += 1;
            if differs(&run, room) {
                self.differences += 1;
                let (text, spec) = smallest(text, spec, differs_somewhere);
                println!("difference: {text:?} with {spec}");
                break;
            }
        }
    }
}

fn differs(run: &Run, room: usize) -> bool {
    run.answer(room) != model::answer(&run.tables, Row::numbers_for(room), None)
}

fn differs_somewhere(text: &str, spec: &Spec) -> bool {
    Run::of(text, spec).is_ok_and(|run| (0..=run.writes.len()).any(|room| differs(&run, room)))
}
