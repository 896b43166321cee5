//! One case: tables, and the lengths of both buffers.

use cases::dice::Dice;
use sheet::{Row, Tables};

use crate::damage::damage;
use crate::{text, tokens};

#[derive(Debug, Clone, PartialEq, Eq)]
pub struct Case {
    pub tables: Tables,
    /// The lengths of the tree buffer and of the dropped buffer, in numbers.
    pub tree: usize,
    pub dropped: usize,
}

/// One case in so many lies around the limits of the tables: those are large.
const LARGE: usize = 20_000;

impl Case {
    pub fn by_chance(dice: &mut Dice) -> Self {
        let mut tables = match dice.once_in(LARGE) {
            true => around_limits(dice),
            false => right(dice),
        };
        if dice.once_in(2) {
            damage(dice, &mut tables);
        }
        let rows = tables.token_count();
        let dropped = match dice.below(8) {
            0 => (3 * rows).saturating_sub(1 + dice.below(3)),
            1 => 3 * rows + dice.below(9),
            _ => 3 * rows,
        };
        let tree = match dice.below(4) {
            0 => dice.below(Row::WIDTH * (2 * rows + 3)),
            _ => 8 * Row::WIDTH * (rows + tables.text.len()) + dice.below(5 * Row::WIDTH),
        };
        Self {
            tables,
            tree,
            dropped,
        }
    }
}

/// Tables of which each row is right, or nearly each.
fn right(dice: &mut Dice) -> Tables {
    let most = if dice.once_in(30) { 400 } else { 24 };
    let count = dice.length(most);
    let characters = dice.below(count + 8);
    let [shape_count, state_count] = [dice.below(6), dice.below(5)];
    let text = text::text(dice, characters);
    let tokens = tokens::tokens(dice, &text, shape_count, count);
    Tables {
        tokens,
        text,
        shapes: tokens::shapes(dice, state_count, shape_count),
        states: tokens::states(dice, state_count),
    }
}

/// Tables with as many bytes and rows as are allowed, or one more.
fn around_limits(dice: &mut Dice) -> Tables {
    let mut tables = right(dice);
    let around = |dice: &mut Dice, most: usize| most - 1 + dice.below(3);
    match dice.below(4) {
        0 => tables.text.resize(around(dice, 65_535), b'a'),
        1 => tables.tokens = [1, 0, 0, 0].repeat(around(dice, 16_384)),
        2 => tables.shapes = [1, 1, 1].repeat(around(dice, 4_096)),
        _ => tables.states = [0, 1, 4_095].repeat(around(dice, 4_096)),
    }
    tables
}
