//! Inserted row by row, the rows are the tree's.

use answers::{Run, Spec};
use bench::{insert_all, insertions, Numbers, WORKLOADS};
use cases::dice::Dice;
use cases::{all_sequences, by_chance, usual};

fn check(text: &str, spec: &Spec) {
    let Ok(run) = Run::of(text, spec) else {
        return;
    };
    let mut rows = Vec::new();
    insert_all(&mut rows, &insertions(&run.writes));
    let told: Vec<Numbers> = run.rows.iter().map(|row| row.numbers()).collect();
    if !run.rows.is_empty() {
        assert_eq!(rows, told, "{text}");
    }
}

#[test]
fn rows_inserted_are_the_trees() {
    for text in (0..=2).flat_map(all_sequences) {
        check(&text, &usual());
    }
    let mut dice = Dice::new(5);
    for _ in 0..3_000 {
        let (text, spec) = by_chance(&mut dice, 60);
        check(&text, &spec);
    }
}

#[test]
fn workloads_have_about_as_many_tokens_as_they_say() {
    for workload in &WORKLOADS {
        for &size in workload.sizes {
            let run = Run::of(&workload.text(size), &workload.spec()).expect("a run");
            let tokens = run.tables.token_count();
            assert!(tokens.abs_diff(size) <= 241, "{} {tokens}", workload.name);
            assert!(tokens <= 16_384 && run.tables.text.len() <= 65_535);
            assert!(run.deepest <= 128, "{}", workload.name);
        }
    }
}
