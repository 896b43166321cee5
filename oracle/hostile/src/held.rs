//! One case held against the model.

use cases::dice::Dice;
use sheet::{Ran, Refusal, Row, Tables, START};

use crate::buffers::{Around, Lent};
use crate::case::Case;
use crate::questions::{answers_differ, by_port};
use crate::rows::FORMULA;

/// A run over lent buffers: the port's, or in tests one that is wrong on purpose.
pub type Runner<'r> = &'r dyn Fn(&Tables, &mut [u32], &mut [u32]) -> Ran;

/// The answer, or how the runner differs from the model. The dice fill the buffers.
pub fn difference(
    case: &Case,
    dice: &mut Dice,
    around: Around,
    runner: Runner,
) -> Result<Ran, String> {
    let before = [case.tree, case.dropped].map(|len| Lent::new(dice, len, around));
    let (ran, after) = run(case, &before, runner);
    let by_model = |tables: &Tables, tree: &mut [u32], dropped: &mut [u32]| {
        model::run(tables, tree, dropped, None)
    };
    let (modelled, expected) = run(case, &before, &by_model);
    if ran != modelled {
        return Err(format!("the model: {modelled:?}\nthe port: {ran:?}"));
    }
    if after != expected {
        return Err(format!("{ran:?}, but other elements than the model's"));
    }
    kept(ran, &before, &after)?;
    asked(case, dice, &after[0])?;
    Ok(ran)
}

fn run(case: &Case, before: &[Lent; 2], runner: Runner) -> (Ran, [Lent; 2]) {
    let [mut tree, mut dropped] = before.clone();
    // A copy has no room behind its end, so that a read past it can be seen.
    let tables = case.tables.clone();
    let ran = runner(&tables, tree.lent_mut(), dropped.lent_mut());
    (ran, [tree, dropped])
}

/// What 01 says of the buffers, whatever the model does: refusals 1 to 4 write nothing, the
/// others set all to zeros, and behind the rows all is as it was.
fn kept(ran: Ran, before: &[Lent; 2], after: &[Lent; 2]) -> Result<(), String> {
    let written = match ran {
        Ok(counts) => [Row::WIDTH * counts.rows, 3 * counts.dropped],
        Err(_) => [0, 0],
    };
    for ((before, after), written) in before.iter().zip(after).zip(written) {
        let right = match ran {
            Err(Refusal { number: 5.., .. }) => after.lent().iter().all(|&number| number == 0),
            _ => before.lent()[written..] == after.lent()[written..],
        };
        if !right {
            return Err(format!("{ran:?}, but elements that should not be so"));
        }
    }
    Ok(())
}

/// The questions about some row, of whatever the tree buffer holds.
fn asked(case: &Case, dice: &mut Dice, tree: &Lent) -> Result<(), String> {
    let (text, tree) = (&case.tables.text[..], tree.lent());
    let mut rows = tree.chunks_exact(Row::WIDTH).map(Row::of);
    let by_chance = dice.below(rows.len() + 2);
    let formula = rows.position(|row| row.tag == START && row.kind == FORMULA);
    for at in [by_chance, formula.unwrap_or(0)] {
        answers_differ(text, tree, at, &by_port)?;
    }
    Ok(())
}
