//! Runs, and answers to the questions, that are wrong on purpose are told from the model's.

use cases::dice::Dice;
use hostile::{
    by_model, by_port, difference, smallest, Answers, Around, Asked, Case, Rows, Runner, TEXT,
};
use model::Slip;
use sheet::{Counts, Ran, Refusal, Row, Tables, FINISH, LEAF};

/// The first case by chance on which a runner differs, cut down.
fn first(runner: Runner) -> Option<Case> {
    let mut dice = Dice::new(3);
    let differs =
        |case: &Case| difference(case, &mut Dice::new(0), Around::Canaries, runner).is_err();
    let mut cases = (0..30_000).map(|_| Case::by_chance(&mut dice));
    let case = cases.find(differs)?;
    Some(smallest(case, &differs))
}

fn right(tables: &Tables, tree: &mut [u32], dropped: &mut [u32]) -> Ran {
    model::run(tables, tree, dropped, None)
}

#[test]
fn the_model_agrees_with_itself() {
    assert_eq!(first(&right), None);
}

#[test]
fn a_place_beside_the_right_one_is_found() {
    for number in 3..=8 {
        let beside = |tables: &Tables, tree: &mut [u32], dropped: &mut [u32]| {
            right(tables, tree, dropped).map_err(|refusal| Refusal {
                place: refusal.place + usize::from(refusal.number == number),
                ..refusal
            })
        };
        assert!(first(&beside).is_some(), "refusal {number}");
    }
}

#[test]
fn a_wrong_fifth_number_is_found() {
    for slip in Slip::FIFTH_NUMBER {
        let slipped = |tables: &Tables, tree: &mut [u32], dropped: &mut [u32]| {
            model::run(tables, tree, dropped, Some(slip))
        };
        let case = first(&slipped).unwrap_or_else(|| panic!("{slip:?} is not found"));
        assert!(case.tables.token_count() <= 2, "{slip:?}: {case:?}");
    }
}

#[test]
fn a_buffer_that_keeps_something_after_a_refusal_is_found() {
    let keeps = |tables: &Tables, tree: &mut [u32], dropped: &mut [u32]| {
        let before = dropped.to_vec();
        let ran = right(tables, tree, dropped);
        if ran.is_err() {
            dropped.copy_from_slice(&before);
        }
        ran
    };
    let case = first(&keeps).expect("a difference");
    assert!(case.dropped > 0);
}

#[test]
fn a_number_behind_the_rows_is_found() {
    let writes = |tables: &Tables, tree: &mut [u32], dropped: &mut [u32]| {
        let ran = right(tables, tree, dropped);
        if let Ok(Counts { rows, .. }) = ran {
            if let Some(next) = tree.get_mut(Row::WIDTH * rows) {
                *next ^= 1;
            }
        }
        ran
    };
    let case = first(&writes).expect("a difference");
    assert_eq!((case.tables.token_count(), case.tree), (0, 11));
}

#[test]
fn a_refusal_that_writes_is_found() {
    let writes = |tables: &Tables, tree: &mut [u32], dropped: &mut [u32]| {
        let ran = right(tables, tree, dropped);
        if matches!(ran, Err(Refusal { number: 1..=4, .. })) {
            tree.fill(0);
        }
        ran
    };
    assert!(first(&writes).is_some());
}

/// Where these answers stand among those about a row.
const VALID: usize = 2;
const WHOLE: usize = 3;

/// Whether the opener lies inside the text.
fn opened([display, inline, ..]: Answers) -> bool {
    display || inline
}

/// The first rows by chance on which someone who answers wrongly is found.
fn first_rows(asked: Asked) -> Option<Rows> {
    let mut dice = Dice::new(5);
    let mut rows = (0..100_000).map(|_| Rows::by_chance(&mut dice));
    rows.find(|rows| rows.difference(asked).is_err())
}

/// Whether a formula has one leaf inside and nothing else.
fn alone(tree: &[u32], at: usize) -> bool {
    let tag = |at: usize| tree[Row::WIDTH * at];
    (tag(at + 1), tag(at + 2)) == (LEAF, FINISH)
}

/// The model's answers with another one to the strict question.
fn but_whole(whole: bool, [display, inline, valid, _, leaf]: Answers) -> Answers {
    [display, inline, valid, whole, leaf]
}

#[test]
fn the_port_answers_as_the_model() {
    assert!(first_rows(&by_port).is_none());
}

#[test]
fn a_strict_question_that_goes_into_children_is_found() {
    let goes_into = |text: &[u8], tree: &[u32], at: usize| {
        let right = by_model(text, tree, at);
        but_whole(right[VALID] && !alone(tree, at), right)
    };
    assert!(first_rows(&goes_into).is_some());
}

#[test]
fn a_strict_question_that_takes_one_row_for_both_is_found() {
    let lone = |text: &[u8], tree: &[u32], at: usize| {
        let right = by_model(text, tree, at);
        but_whole(right[WHOLE] || right[VALID] && alone(tree, at), right)
    };
    assert!(first_rows(&lone).is_some());
}

#[test]
fn a_strict_question_that_takes_a_closer_outside_the_text_is_found() {
    let outside = |text: &[u8], tree: &[u32], at: usize| {
        let right = by_model(text, tree, at);
        let more = [text, &TEXT[text.len()..]].concat();
        but_whole(
            right[WHOLE] || opened(right) && by_model(&more, tree, at)[WHOLE],
            right,
        )
    };
    assert!(first_rows(&outside).is_some());
}
