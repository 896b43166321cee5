//! The comparison tells each of the slips that look right from the Rust, each slip in a row's
//! fifth number, and wrong answers to the questions.

use answers::{Run, Spec};
use cases::dice::Dice;
use cases::smallest;
use differ::{difference, formulas, Held, Rooms, Runner};
use model::Slip;
use sheet::{Ran, Row, Tables};

/// How what is held differs on a formula.
fn says(text: &str, spec: &Spec, held: Held) -> Option<String> {
    let run = Run::of(text, spec).ok()?;
    difference(&run, text, spec, Rooms::Some(&mut Dice::new(0)), held).err()
}

/// The first of some formulas on which a runner differs, cut down.
fn first(run: Runner) -> Option<(String, String)> {
    first_held(Held { run, ..Held::PORT })
}

fn first_held(held: Held) -> Option<(String, String)> {
    let differs = |text: &str, spec: &Spec| says(text, spec, held).is_some();
    let mut formulas = formulas(40_000, 1).take(40_000);
    let (text, spec) = formulas.find(|(text, spec)| differs(text, spec))?;
    let (text, spec) = smallest(&text, &spec, differs);
    let said = says(&text, &spec, held)?;
    Some((text, said))
}

/// The smallest formula on which a slip shows, and how.
fn shown(slip: Slip) -> (String, String) {
    let slipped = |tables: &Tables, tree: &mut [u32], dropped: &mut [u32]| -> Ran {
        model::run(tables, tree, dropped, Some(slip))
    };
    first(&slipped).unwrap_or_else(|| panic!("{slip:?} is not found"))
}

#[test]
fn every_slip_is_found_and_cut_down() {
    for slip in Slip::LISTED {
        let (text, said) = shown(slip);
        assert!(text.chars().count() <= 20, "{slip:?}: {text}");
        assert!(said.contains("the Rust: ") && said.contains("the port: "));
    }
}

/// A slip in the fifth number shows on a short formula, in a row of this tag and kind.
#[test]
fn every_wrong_fifth_number_is_found_and_its_row_shown() {
    let row_of = |slip| match slip {
        Slip::HeldHasPlace => (3, "tag: 1, kind: 2,"),
        Slip::WrapHasFirstLeaf => (2, "tag: 0, kind: 28,"),
        Slip::FinishHasNext => (0, "tag: 2, kind: 44,"),
        Slip::SkippedHasNext => (8, "tag: 0, kind: 40,"),
        other => panic!("{other:?} is in another number"),
    };
    for slip in Slip::FIFTH_NUMBER {
        let (most, row) = row_of(slip);
        let (text, said) = shown(slip);
        assert!(text.chars().count() <= most, "{slip:?}: {text}");
        for side in ["the Rust", "the port"] {
            let line = said
                .lines()
                .find(|line| line.contains(&format!("of {side}: Row")));
            let line = line.unwrap_or_else(|| panic!("{slip:?}: {said}"));
            assert!(line.contains(row), "{slip:?}: {line}");
        }
    }
}

#[test]
fn a_room_that_is_not_rounded_down_is_found() {
    // Numbers that are no whole row are taken for a row.
    let rounds_up = |tables: &Tables, tree: &mut [u32], dropped: &mut [u32]| -> Ran {
        let mut more = tree.to_vec();
        more.resize(Row::WIDTH * tree.len().div_ceil(Row::WIDTH), 0);
        let ran = model::run(tables, &mut more, dropped, None);
        tree.copy_from_slice(&more[..tree.len()]);
        ran
    };
    let (_, said) = first(&rounds_up).expect("a difference");
    assert!(said.contains("the Rust: refused 8 "), "{said}");
}

#[test]
fn what_is_left_in_the_buffers_counts() {
    let untidy = |tables: &Tables, tree: &mut [u32], dropped: &mut [u32]| -> Ran {
        let ran = model::run(tables, tree, dropped, None);
        if ran.is_ok_and(|counts| Row::WIDTH * counts.rows < tree.len()) {
            *tree.last_mut().expect("a number behind the rows") ^= 1;
        }
        ran
    };
    let (text, _) = first(&untidy).expect("a difference");
    assert_eq!(text, "");
}

#[test]
fn a_strict_question_that_is_as_lax_as_the_other_is_found() {
    let lax = |text: &[u8], tree: &[u32], at: usize| {
        let [display, inline, valid, _] = (Held::PORT.asked)(text, tree, at);
        [display, inline, valid, valid]
    };
    let (text, said) = first_held(Held {
        asked: &lax,
        ..Held::PORT
    })
    .expect("a difference");
    assert_eq!(text, "$");
    assert!(
        said.contains("whole: [[false, true, true, false]]"),
        "{said}"
    );
}

#[test]
fn the_same_seed_gives_the_same_formulas() {
    let some = |seed| -> Vec<(String, Spec)> { formulas(1_000, seed).take(1_000).collect() };
    assert_eq!(some(7), some(7));
    assert_ne!(some(7), some(8));
    let mut dice = Dice::new(0);
    let small = Run::of("1", &Spec::default()).expect("a run");
    let model = |t: &Tables, tree: &mut [u32], d: &mut [u32]| model::run(t, tree, d, None);
    let same = difference(
        &small,
        "1",
        &Spec::default(),
        Rooms::Some(&mut dice),
        Held {
            run: &model,
            ..Held::PORT
        },
    );
    assert_eq!(
        same.map(|same| same.answers),
        Ok(small.writes.len() + 2),
        "every room of a small one"
    );
}
