//! Parts one behind the other: all short sequences, and longer ones by chance.

use crate::dice::Dice;
use crate::parts::{MORE_PARTS, PARTS};

/// The sequences of this length over the parts, in order.
pub fn all(length: u32) -> impl Iterator<Item = String> {
    let count = PARTS.len().pow(length);
    (0..count).map(move |number| sequence(number, length))
}

fn sequence(mut number: usize, length: u32) -> String {
    let mut parts = vec![""; length as usize];
    for part in parts.iter_mut().rev() {
        *part = PARTS[number % PARTS.len()];
        number /= PARTS.len();
    }
    parts.concat()
}

/// So many parts by chance.
pub fn by_chance(dice: &mut Dice, length: usize) -> String {
    let part = |dice: &mut Dice| match dice.once_in(3) {
        true => dice.pick(&MORE_PARTS),
        false => dice.pick(&PARTS),
    };
    (0..length).map(|_| part(dice)).collect()
}
