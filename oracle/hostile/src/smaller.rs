//! A case cut down.

use crate::case::Case;

/// The case with rows, bytes and room left out as long as it still differs.
pub fn smallest(case: Case, differs: &dyn Fn(&Case) -> bool) -> Case {
    let next = smaller(&case).find(|next| differs(next));
    match next {
        Some(next) => smallest(next, differs),
        None => case,
    }
}

fn smaller(case: &Case) -> impl Iterator<Item = Case> + '_ {
    let rows = case.tables.token_count();
    let without_row = move |row: usize| {
        let mut next = case.clone();
        next.tables.tokens.drain(4 * row..4 * row + 4);
        next.dropped = next.dropped.saturating_sub(3);
        next
    };
    let shorter = [
        |case: &mut Case| shorten(&mut case.tables.shapes, 3),
        |case: &mut Case| shorten(&mut case.tables.states, 3),
        |case: &mut Case| shorten(&mut case.tables.text, 1),
        |case: &mut Case| case.tree /= 2,
        |case: &mut Case| case.tree = case.tree.saturating_sub(1),
        |case: &mut Case| case.dropped = case.dropped.saturating_sub(1),
    ];
    let shorter = shorter.into_iter().map(|shorten| {
        let mut next = case.clone();
        shorten(&mut next);
        next
    });
    let all = (0..rows).map(without_row).chain(shorter);
    all.filter(move |next| next != case)
}

fn shorten<T>(list: &mut Vec<T>, by: usize) {
    list.truncate(list.len().saturating_sub(by));
}
