//! Commands with arguments of every sort, inside every scope.

use crate::dice::Dice;
use crate::parts::PARTS;

const TAKERS: [&str; 16] = [
    "\\f",
    "\\g",
    "\\r",
    "\\e",
    "\\d",
    "\\o",
    "\\l",
    "\\s",
    "\\q",
    "\\w",
    "\\x",
    "\\begin{m}",
    "\\begin{j}",
    "\\begin{i}",
    "\\if",
    "\\fi",
];

const TAKEN: [&str; 36] = [
    " ", " ", " ", " ", " ", " ", " ", "\n", "%c\n", "1", "1", "23", "é漢", "{", "}", "{4}",
    "{ 5 }", "[", "]", "[6]", "(", ")", "(7)", "_", "^", "&", "\\\\", "'", ",", "\\z", "\\g",
    "\\l", "\\right", "\\end{m}", "$", "\\)",
];

/// What opens each scope, and what closes it.
const SCOPES: [[&str; 2]; 8] = [
    ["", ""],
    ["$", "$"],
    ["\\(", "\\)"],
    ["\\begin{k}", "\\end{k}"],
    ["\\left[", "\\right]"],
    ["{", "}"],
    ["\\s[", "]{8}"],
    ["\\x1(", ")9"],
];

/// A taker and so many things that it may take, inside some scope. What is taken may
/// close the scope early.
pub fn formula(dice: &mut Dice, count: usize) -> String {
    let [opener, closer] = SCOPES[dice.below(SCOPES.len())];
    let mut text = opener.to_owned();
    if dice.once_in(2) {
        text += dice.pick(&TAKEN);
    }
    text += dice.pick(&TAKERS);
    for _ in 0..count {
        text += dice.pick(&TAKEN);
    }
    text + closer
}

/// Each part in each scope: by itself, and behind commands of three sorts.
pub fn in_every_scope() -> Vec<String> {
    let mut formulas = Vec::new();
    for [opener, closer] in SCOPES {
        for part in PARTS {
            for taker in ["1", "\\f", "\\e", "\\d"] {
                formulas.push(format!("{opener}{taker}{part}2{closer}"));
            }
        }
    }
    formulas
}
