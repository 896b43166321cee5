//! The model of the papers agrees with the Rust on generated formulas, what was dropped
//! puts the text together again, and each leaf lands in its token.

use answers::{formula_questions, with_deep_stack, Fault, Run, Spec};
use cases::dice::Dice;
use cases::{all_sequences, around_limits, by_chance, usual};
use sheet::Row;

fn runs(formulas: Vec<(String, Spec)>, check: impl Fn(&str, &Run) + Send + 'static) {
    with_deep_stack(move || {
        for (text, spec) in formulas {
            match Run::of(&text, &spec) {
                Ok(run) => check(&text, &run),
                Err(Fault::Lexer(_)) => {}
                Err(fault) => panic!("{text:?}: {fault}"),
            }
        }
    });
}

fn short_sequences() -> Vec<(String, Spec)> {
    let texts = (0..=2).flat_map(all_sequences);
    texts.map(|text| (text, usual())).collect()
}

fn formulas_by_chance(count: usize, most: usize) -> Vec<(String, Spec)> {
    let mut dice = Dice::new(count as u64);
    (0..count).map(|_| by_chance(&mut dice, most)).collect()
}

fn agrees(text: &str, run: &Run) {
    for room in 0..=run.writes.len() {
        let model = model::answer(&run.tables, Row::numbers_for(room), None);
        assert_eq!(run.answer(room), model, "{text:?} with room for {room}");
    }
}

#[test]
fn the_model_agrees_at_every_room() {
    runs(short_sequences(), agrees);
    runs(formulas_by_chance(2_000, 12), agrees);
    runs(around_limits(), agrees);
}

#[test]
fn the_model_agrees_on_long_formulas() {
    runs(formulas_by_chance(200, 1_000), |text, run| {
        let room = run.writes.len();
        let model = model::answer(&run.tables, Row::numbers_for(room), None);
        assert_eq!(run.answer(room), model, "{text:?}");
    });
}

/// Leaf texts with each dropped token put back behind as many leaves as its row says.
fn put_together(text: &str, run: &Run) -> String {
    let mut dropped = run.dropped.iter().peekable();
    let mut whole = String::new();
    let leaves = run.rows.iter().filter(|row| row.tag == sheet::LEAF);
    let ranges = leaves.map(|row| (row.start, row.len)).chain([(0, 0)]);
    for (count, (start, len)) in ranges.enumerate() {
        while let Some(row) = dropped.next_if(|row| row.leaves as usize == count) {
            let token = run.tables.token(row.token as usize);
            whole += &text[token.start as usize..(token.start + token.len) as usize];
        }
        whole += &text[start as usize..(start + len) as usize];
    }
    whole
}

fn returns(text: &str, run: &Run) {
    let tokens = run.tables.tokens();
    let parts = tokens.map(|t| &text[t.start as usize..(t.start + t.len) as usize]);
    if run.end == answers::End::Whole {
        assert_eq!(
            put_together(text, run),
            parts.collect::<String>(),
            "{text:?}"
        );
        assert!(
            run.dropped.is_sorted_by(|a, b| a.token < b.token),
            "{text:?}"
        );
    }
}

#[test]
fn leaves_and_dropped_tokens_give_the_text() {
    runs(short_sequences(), returns);
    runs(formulas_by_chance(5_000, 40), returns);
}

/// A leaf lies inside its token's text, leaves come in the order of their tokens, and each
/// token has either leaves or a dropped row.
fn lands(text: &str, run: &Run) {
    if run.end != answers::End::Whole {
        return;
    }
    let leaves = run.rows.iter().filter(|row| row.tag == sheet::LEAF);
    let mut tokens: Vec<u32> = Vec::new();
    for leaf in leaves {
        let token = run.tables.token(leaf.token as usize);
        let inside = token.start <= leaf.start && leaf.start + leaf.len <= token.start + token.len;
        assert!(inside, "{text:?}: {leaf:?}");
        tokens.push(leaf.token);
    }
    assert!(tokens.is_sorted(), "{text:?}");
    tokens.dedup();
    tokens.extend(run.dropped.iter().map(|row| row.token));
    tokens.sort_unstable();
    let all = 0..run.tables.token_count() as u32;
    assert!(tokens.into_iter().eq(all), "{text:?}");
}

#[test]
fn each_leaf_lands_in_its_token() {
    runs(short_sequences(), lands);
    runs(formulas_by_chance(5_000, 40), lands);
}

#[test]
fn questions_about_formulas_have_the_answers_of_the_rust_s_tree() {
    with_deep_stack(|| {
        let mut asked = 0;
        for (text, spec) in formulas_by_chance(5_000, 40) {
            let Ok(run) = Run::of(&text, &spec) else {
                continue;
            };
            if run.end == answers::End::Whole {
                let rust = formula_questions(&text, &spec);
                assert_eq!(model_questions(&text, &run), rust, "{text:?}");
                asked += rust.len();
            }
        }
        assert!(asked > 1_000);
    });
}

fn model_questions(text: &str, run: &Run) -> Vec<[bool; 4]> {
    let (text, rows) = (text.as_bytes(), &run.rows);
    let starts = |&at: &usize| rows[at].tag == sheet::START && rows[at].kind == 43;
    let questions = [
        model::is_display,
        model::is_inline,
        model::is_valid,
        model::is_whole,
    ];
    let formulas = (0..rows.len()).filter(starts);
    formulas
        .map(|at| questions.map(|q| q(text, rows, at)))
        .collect()
}
