//! Good formulas with some characters changed.

use crate::dice::Dice;
use crate::parts::PARTS;

/// A damaged copy: characters left out, doubled, swapped, or parts put in.
pub fn damaged(dice: &mut Dice, text: &str) -> String {
    let mut chars: Vec<char> = text.chars().collect();
    for _ in 0..=dice.below(4) {
        if chars.is_empty() {
            break;
        }
        let at = dice.below(chars.len());
        match dice.below(5) {
            0 => {
                chars.remove(at);
            }
            1 => chars.insert(at, chars[at]),
            2 => {
                let other = dice.below(chars.len());
                chars.swap(at, other);
            }
            3 => chars.truncate(at),
            _ => {
                chars.splice(at..at, dice.pick(&PARTS).chars());
            }
        }
    }
    chars.into_iter().collect()
}
