//! Numbers changed, tables cut: what refusals 1 to 4 are about.

use cases::dice::Dice;
use sheet::Tables;

/// Numbers at the edges of what is allowed, and far beyond.
const EDGES: [u32; 16] = [
    0,
    1,
    2,
    3,
    5,
    6,
    7,
    21,
    39,
    40,
    255,
    256,
    65_535,
    65_536,
    u32::MAX - 1,
    u32::MAX,
];

pub(crate) fn damage(dice: &mut Dice, tables: &mut Tables) {
    match dice.below(8) {
        0 => wild(dice, tables),
        1 => beside_counts(dice, tables),
        2 => tables.text.truncate(dice.below(tables.text.len() + 1)),
        3 => {
            let numbers = table(dice, tables);
            cut(dice, numbers);
        }
        _ => {
            let numbers = table(dice, tables);
            change(dice, numbers);
        }
    }
}

fn table<'t>(dice: &mut Dice, tables: &'t mut Tables) -> &'t mut Vec<u32> {
    match dice.below(4) {
        0 => &mut tables.shapes,
        1 => &mut tables.states,
        _ => &mut tables.tokens,
    }
}

/// Up to three numbers fewer: often no whole rows.
fn cut(dice: &mut Dice, numbers: &mut Vec<u32>) {
    let left = numbers.len().saturating_sub(1 + dice.below(3));
    numbers.truncate(left);
}

fn change(dice: &mut Dice, numbers: &mut [u32]) {
    if numbers.is_empty() {
        return;
    }
    for _ in 0..=dice.below(2) {
        let at = dice.below(numbers.len());
        numbers[at] = match dice.below(4) {
            0 => numbers[at].wrapping_add(1),
            1 => dice.number() as u32,
            _ => EDGES[dice.below(EDGES.len())],
        };
    }
}

/// All tables of some numbers by chance.
fn wild(dice: &mut Dice, tables: &mut Tables) {
    for numbers in [&mut tables.tokens, &mut tables.shapes, &mut tables.states] {
        let count = dice.below(12);
        *numbers = (0..count).map(|_| EDGES[dice.below(EDGES.len())]).collect();
    }
}

/// One number of a row beside what its table allows: the shape and state counts, the text's end.
fn beside_counts(dice: &mut Dice, tables: &mut Tables) {
    let near = |dice: &mut Dice, count: usize| (count + dice.below(3)) as u32;
    let (shapes, states) = (tables.shape_count(), tables.state_count());
    let rows = tables.token_count();
    match dice.below(3) {
        0 if rows > 0 => tables.tokens[4 * dice.below(rows) + 3] = near(dice, shapes),
        1 if rows > 0 => {
            let row = 4 * dice.below(rows);
            let start = tables.tokens[row + 1] as usize;
            let left = tables.text.len().saturating_sub(start);
            tables.tokens[row + 2] = near(dice, left);
        }
        2 if states > 0 => {
            let at = dice.below(tables.states.len());
            tables.states[at] = near(dice, states);
        }
        _ => {}
    }
}
