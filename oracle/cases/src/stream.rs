//! Formulas without end, of every kind that there is a generator for.

use answers::Spec;

use crate::damage::damaged;
use crate::dice::Dice;
use crate::parts::{shapes_by_chance, shapes_of_kinds, usual_shapes};
use crate::{arguments, grammar, sequences};

/// The shapes that sequences of parts are read with.
pub fn usual() -> Spec {
    usual_shapes()
}

/// A formula of up to so many parts, by grammar, by chance, or a damaged one.
pub fn by_chance(dice: &mut Dice, most: usize) -> (String, Spec) {
    let length = dice.length(most);
    let text = match dice.below(6) {
        0 => sequences::by_chance(dice, length),
        1 => grammar::formula(dice, length),
        2 => damage_grammar(dice, length),
        3 | 4 => arguments::formula(dice, length),
        _ => foreign(dice, length),
    };
    (text, shapes(dice))
}

fn damage_grammar(dice: &mut Dice, length: usize) -> String {
    let whole = grammar::formula(dice, length);
    damaged(dice, &whole)
}

fn shapes(dice: &mut Dice) -> Spec {
    match dice.below(3) {
        0 => usual_shapes(),
        1 => shapes_of_kinds(),
        _ => shapes_by_chance(dice),
    }
}

/// Characters of one to four bytes: the first and the last of each length that a Word
/// may hold, and some between.
const CHARACTERS: [char; 16] = [
    '0',
    '9',
    '|',
    '\u{80}',
    'é',
    'ß',
    '\u{301}',
    '\u{7ff}',
    '\u{800}',
    '漢',
    '\u{d7ff}',
    '\u{e000}',
    '\u{fffd}',
    '\u{10000}',
    '😀',
    '\u{10ffff}',
];

/// What takes single characters out of a Word, or stands around one.
const TAKERS: [&str; 10] = [
    "\\f", "\\g", "\\s", "_", "^", "\\left", "\\right", " ", "{", "}",
];

fn foreign(dice: &mut Dice, length: usize) -> String {
    let mut text = String::new();
    for _ in 0..length {
        if dice.once_in(3) {
            text += dice.pick(&TAKERS);
        } else {
            text.push(CHARACTERS[dice.below(CHARACTERS.len())]);
        }
    }
    text
}
