//! Tables that no lexer makes, rows that no run gives, and any bytes as a text: `hostile CASES
//! SEED [bare]`, so many of each. With `bare` nothing lies around the lent buffers, for a tool
//! that watches memory.

use std::process::ExitCode;

use cases::dice::Dice;
use hostile::{by_port, difference, smallest, Answers, Around, Case, Formula, Rows};

fn main() -> ExitCode {
    let words: Vec<String> = std::env::args().skip(1).collect();
    let words: Vec<&str> = words.iter().map(String::as_str).collect();
    let (count, seed, around) = match words[..] {
        [count, seed] => (count.parse(), seed.parse(), Around::Canaries),
        [count, seed, "bare"] => (count.parse(), seed.parse(), Around::Nothing),
        _ => (Ok(0), Ok(0), Around::Nothing),
    };
    match (count, seed) {
        (Ok(count), Ok(seed)) if count > 0 => {
            let asked = ask(count, seed) + cut(count, seed, around);
            let differ = asked + compare(count, seed, around);
            println!("{count} cases, {differ} differ");
            ExitCode::from(u8::from(differ > 0))
        }
        _ => {
            eprintln!("usage: hostile CASES SEED [bare]");
            ExitCode::FAILURE
        }
    }
}

/// Asks about each row of so many trees, and says how many differ.
fn ask(count: usize, seed: u64) -> usize {
    let mut dice = Dice::new(!seed);
    let mut yes = [0; 5];
    let mut differ = 0;
    for _ in 0..count {
        let rows = Rows::by_chance(&mut dice);
        match rows.difference(&by_port) {
            Ok(answers) => answers.iter().for_each(|row| count_yes(&mut yes, row)),
            Err(said) => {
                differ += 1;
                println!("differs: {rows:?}\n{said}");
            }
        }
    }
    let [display, inline, valid, whole, leaf] = yes;
    println!(
        "rows of {count} trees: {display} display, {inline} inline, {valid} valid, {whole} whole, {leaf} leaves"
    );
    differ
}

fn count_yes(yes: &mut [usize; 5], answers: &Answers) {
    for (yes, &said) in yes.iter_mut().zip(answers) {
        *yes += usize::from(said);
    }
}

/// Cuts so many texts into tokens, and says how many differ.
fn cut(count: usize, seed: u64, around: Around) -> usize {
    let mut dice = Dice::new(seed.wrapping_add(1));
    let [mut written, mut tokens, mut one, mut eleven, mut differ] = [0; 5];
    for _ in 0..count {
        let formula = Formula::by_chance(&mut dice);
        match formula.difference(&mut dice, around, &port::tokenise) {
            Ok(Ok(rows)) => {
                written += 1;
                tokens += rows;
            }
            Ok(Err(refusal)) if refusal.number == 1 => one += 1,
            Ok(Err(_)) => eleven += 1,
            Err(_) => {
                differ += 1;
                show_formula(formula, around);
            }
        }
    }
    println!(
        "texts of {count} formulas: {written} written, {tokens} tokens, {one} refused 1, {eleven} refused 11"
    );
    differ
}

/// Prints the smallest text that still differs, with both answers.
fn show_formula(formula: Formula, around: Around) {
    let says = |formula: &Formula| {
        let came = formula.difference(&mut Dice::new(0), around, &port::tokenise);
        came.err()
    };
    let formula = formula.smallest(&|formula| says(formula).is_some());
    let said = says(&formula).unwrap_or_default();
    println!("differs: {formula:?}\n{said}");
}

/// Runs so many tables, and says how many differ.
fn compare(count: usize, seed: u64, around: Around) -> usize {
    let mut dice = Dice::new(seed);
    let mut by_number = [0; 9];
    let mut differ = 0;
    for _ in 0..count {
        let case = Case::by_chance(&mut dice);
        match difference(&case, &mut dice, around, &port::run) {
            Ok(ran) => by_number[ran.map_or_else(|refusal| refusal.number as usize, |_| 0)] += 1,
            Err(_) => {
                differ += 1;
                show(case, around);
            }
        }
    }
    println!("accepted {}", by_number[0]);
    for (number, count) in by_number.iter().enumerate().skip(1) {
        println!("refused {number}: {count}");
    }
    differ
}

/// Prints the smallest case that still differs, with both answers.
fn show(case: Case, around: Around) {
    let says = |case: &Case| difference(case, &mut Dice::new(0), around, &port::run).err();
    let case = smallest(case, &|case| says(case).is_some());
    println!("differs: {case:?}\n{}", says(&case).unwrap_or_default());
}
