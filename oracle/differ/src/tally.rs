//! What was compared, counted.

use std::fmt;

use answers::{Fault, Run, Spec};
use cases::dice::Dice;
use cases::smallest;
use sheet::Answer;

use crate::held::{difference, Held, Questions, Rooms};

#[derive(Debug, Default)]
pub struct Tally {
    pub cases: usize,
    pub differ: usize,
    tokens: usize,
    longest: usize,
    answers: usize,
    /// The lexer panicked on these: they lie outside the domain and are no cases.
    outside: usize,
    /// By their answer with room enough; 0 is accepted.
    refused: [usize; 9],
    /// Formulas of all trees with room enough, and of how many each question said yes.
    formulas: usize,
    yes: [usize; 4],
}

impl Tally {
    /// Compares a formula, and prints a difference with the smallest input that shows it.
    pub fn formula(&mut self, text: &str, spec: &Spec, dice: &mut Dice, held: Held) {
        let run = match Run::of(text, spec) {
            Ok(run) => run,
            Err(Fault::Lexer(_)) => {
                self.outside += 1;
                return;
            }
            Err(fault) => panic!("{text:?}: {fault}"),
        };
        self.count(&run);
        match difference(&run, text, spec, Rooms::Some(dice), held) {
            Ok(same) => {
                self.answers += same.answers;
                same.formulas
                    .into_iter()
                    .for_each(|formula| self.asked(formula));
            }
            Err(_) => {
                self.differ += 1;
                println!("{}", cut_down(text, spec, held));
            }
        }
    }

    fn asked(&mut self, formula: Questions) {
        self.formulas += 1;
        for (yes, said) in self.yes.iter_mut().zip(formula) {
            *yes += usize::from(said);
        }
    }

    fn count(&mut self, run: &Run) {
        let tokens = run.tables.token_count();
        self.cases += 1;
        self.tokens += tokens;
        self.longest = self.longest.max(tokens);
        self.refused[match run.answer(run.writes.len()) {
            Answer::Accepted { .. } => 0,
            Answer::Refused { number, .. } => number as usize,
        }] += 1;
    }
}

/// The smallest formula that still differs, with both answers.
fn cut_down(text: &str, spec: &Spec, held: Held) -> String {
    let differs = |text: &str, spec: &Spec| says(text, spec, held).is_some();
    let (text, spec) = smallest(text, spec, differs);
    let said = says(&text, &spec, held);
    let said = said.unwrap_or_else(|| "only at its full length".to_owned());
    format!("differs: {text:?} with {spec}\n{said}")
}

fn says(text: &str, spec: &Spec, held: Held) -> Option<String> {
    let run = Run::of(text, spec).ok()?;
    difference(&run, text, spec, Rooms::All, held).err()
}

impl fmt::Display for Tally {
    fn fmt(&self, f: &mut fmt::Formatter<'_>) -> fmt::Result {
        let [accepted, _, _, _, _, five, six, seven, _] = self.refused;
        writeln!(
            f,
            "{} tokens, at most {} in one; {} answers at all rooms",
            self.tokens, self.longest, self.answers
        )?;
        writeln!(
            f,
            "with room enough: {accepted} accepted, {five} refused 5, {six} refused 6, {seven} refused 7"
        )?;
        let [display, inline, valid, whole] = self.yes;
        writeln!(
            f,
            "{} formulas in the trees: {display} display, {inline} inline, {valid} valid, {whole} whole",
            self.formulas
        )?;
        writeln!(f, "the lexer panicked on {} more", self.outside)?;
        write!(f, "{} cases, {} differ", self.cases, self.differ)
    }
}
