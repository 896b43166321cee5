//! Texts by chance, from parts that matter.

use cases::dice::Dice;

use crate::parts::part;
use crate::texts::EIGHT_TOKENS;

/// Mostly short ones; one in 20,000 is about as long as a text may be.
pub(crate) fn text(dice: &mut Dice) -> String {
    match dice.below(20_000) {
        0 => long(dice),
        1..=500 => of_parts(dice, 300),
        _ => of_parts(dice, 40),
    }
}

/// Up to so many parts.
fn of_parts(dice: &mut Dice, most: usize) -> String {
    let count = dice.length(most);
    let mut text = String::new();
    (0..count).for_each(|_| part(dice, &mut text));
    text
}

/// Some parts, with a line break and a comma behind them. That comma is always a token, so a
/// text made of such pieces has the tokens of its pieces.
fn piece(dice: &mut Dice) -> String {
    of_parts(dice, 40) + "\n,"
}

/// A text with about as many bytes or tokens as it may have.
fn long(dice: &mut Dice) -> String {
    match dice.below(3) {
        0 => long_words(dice),
        1 => many_tokens(dice),
        _ => pieces(dice),
    }
}

/// Pieces between long Words, filled up to as many bytes as are allowed, or some more or less.
fn long_words(dice: &mut Dice) -> String {
    let bytes = 65_533 + dice.below(5);
    let mut text = String::new();
    while text.len() + 2_000 < bytes {
        text += &piece(dice);
        text += &"a".repeat(500 + dice.below(1_000));
    }
    let left = bytes.saturating_sub(text.len());
    text + &"b".repeat(left)
}

/// Commas and some pieces among them: about as many tokens as are allowed.
fn many_tokens(dice: &mut Dice) -> String {
    let some = |dice: &mut Dice| piece(dice) + &piece(dice);
    let [before, behind] = [some(dice), some(dice)];
    let commas = dice.below(150);
    let units = (16_384 - commas) / 8;
    let more = ",".repeat(dice.below(8));
    format!("{before}{}{behind}{more}", EIGHT_TOKENS.repeat(units))
}

/// Pieces and nothing else, as many bytes as a text may have or fewer.
fn pieces(dice: &mut Dice) -> String {
    let bytes = dice.below(65_000);
    let mut text = String::new();
    while text.len() < bytes {
        text += &piece(dice);
    }
    text
}
