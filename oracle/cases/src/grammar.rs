//! Formulas as people write them: what is opened is closed, and scripts have bases.

use crate::dice::Dice;

const WORDS: [&str; 8] = ["1", "23", "456", "é", "漢語", "𝒳", "x\u{301}y", "12345678"];
const MARKS: [&str; 13] = [
    ",", "~", "/", "&", "'", "\"", ";", "#", "*", "@", "\\\\", "]", ")",
];
const BLANKS: [&str; 5] = [" ", "\n", "  ", "%c\n", "\u{3000}"];
const COMMANDS: [&str; 13] = [
    "\\u", "\\z", "\\f", "\\g", "\\e", "\\d", "\\o", "\\l", "\\s", "\\q", "\\w", "\\x", "\\f*",
];
const ENVIRONMENTS: [&str; 5] = ["m", "k", "j", "i", "v"];

/// A formula of about so many items.
pub fn formula(dice: &mut Dice, items: usize) -> String {
    let mut left = items;
    let mut text = String::new();
    while left > 0 {
        item(dice, &mut left, 0, &mut text);
    }
    text
}

/// The groups that may lie inside one another.
const DEPTH: usize = 20;

fn item(dice: &mut Dice, left: &mut usize, depth: usize, text: &mut String) {
    *left = left.saturating_sub(1);
    match dice.below(if depth < DEPTH { 16 } else { 10 }) {
        0..=3 => *text += dice.pick(&WORDS),
        4..=5 => *text += dice.pick(&BLANKS),
        6 => *text += dice.pick(&MARKS),
        7..=9 => *text += dice.pick(&COMMANDS),
        10 => script(dice, left, depth, text),
        11 => enclosed(dice, left, depth, ["[", "]"], text),
        12 => enclosed(dice, left, depth, ["{", "}"], text),
        13 => {
            let name = dice.pick(&ENVIRONMENTS);
            let pair = [
                &format!("\\begin{{{name}}}")[..],
                &format!("\\end{{{name}}}"),
            ];
            enclosed(dice, left, depth, pair, text);
        }
        14 => {
            let pair = dice.below(PAIRS.len());
            enclosed(dice, left, depth, PAIRS[pair], text);
        }
        _ => enclosed(dice, left, depth, ["(", ")"], text),
    }
}

const PAIRS: [[&str; 2]; 8] = [
    ["$", "$"],
    ["$$", "$$"],
    ["\\(", "\\)"],
    ["\\[", "\\]"],
    ["\\left(", "\\right."],
    ["\\left\\z", "\\right 1"],
    ["\\iffalse ", "\\fi"],
    ["\\iftypst ", "\\fi "],
];

fn script(dice: &mut Dice, left: &mut usize, depth: usize, text: &mut String) {
    *text += dice.pick(&["^", "_", "_ ", "'^"]);
    item(dice, left, depth + 1, text);
}

fn enclosed(
    dice: &mut Dice,
    left: &mut usize,
    depth: usize,
    [opener, closer]: [&str; 2],
    text: &mut String,
) {
    *text += opener;
    for _ in 0..dice.below(6) {
        if *left > 0 {
            item(dice, left, depth + 1, text);
        }
    }
    *text += closer;
}
