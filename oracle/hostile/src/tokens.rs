//! Rows that are right by themselves, in an order that no lexer gives: overlapping,
//! backwards, empty.

use cases::dice::Dice;

const WORD: u32 = 21;
/// Kinds that open a node when repeated: `{`, `_`, a `\begin`, `\(`, `\left`.
const OPENERS: [u32; 5] = [3, 20, 27, 29, 38];
/// Kinds that open and close, carry scripts and take arguments: these make deep trees.
const BUSY: [u32; 20] = [
    3, 6, 4, 7, 5, 8, 13, 20, 14, 21, 26, 26, 27, 28, 33, 37, 38, 39, 22, 1,
];

/// So many token rows over a text and so many shapes.
pub(crate) fn tokens(dice: &mut Dice, text: &[u8], shapes: usize, count: usize) -> Vec<u32> {
    let busy = dice.below(3);
    let mut rows = deep(dice);
    for _ in 0..count {
        let kind = match dice.below(4) > busy {
            true => dice.below(40) as u32,
            false => BUSY[dice.below(BUSY.len())],
        };
        let [start, len] = range(dice, text, kind == WORD);
        let shape = match shapes == 0 || dice.once_in(3) {
            true => 0,
            false => dice.below(shapes + 1),
        };
        rows.extend([
            word_or_blank(kind, len),
            start as u32,
            len as u32,
            shape as u32,
        ]);
    }
    rows
}

/// Now and then about as many openers as nodes may be open.
fn deep(dice: &mut Dice) -> Vec<u32> {
    match dice.once_in(100) {
        true => [OPENERS[dice.below(OPENERS.len())], 0, 0, 0].repeat(115 + dice.below(20)),
        false => Vec::new(),
    }
}

/// A Word must not be empty.
fn word_or_blank(kind: u32, len: usize) -> u32 {
    match kind == WORD && len == 0 {
        true => 1,
        false => kind,
    }
}

/// A range inside the text; of a Word, mostly one of whole characters.
fn range(dice: &mut Dice, text: &[u8], word: bool) -> [usize; 2] {
    let start = dice.below(text.len() + 1);
    let left = text.len() - start;
    let len = match dice.below(4) {
        0 => dice.below(left + 1),
        1 => 0,
        _ => left.min(1 + dice.below(6)),
    };
    let whole = |len: &usize| std::str::from_utf8(&text[start..start + len]).is_ok();
    match word && !dice.once_in(200) {
        true => [start, (0..=len).rev().find(whole).unwrap_or(0)],
        false => [start, len],
    }
}

/// So many shape rows, right beside so many states.
pub(crate) fn shapes(dice: &mut Dice, states: usize, count: usize) -> Vec<u32> {
    let mut rows = Vec::new();
    for _ in 0..count {
        let class = 1 + dice.below(2) as u32;
        let forms = if class == 1 { 7 } else { 5 };
        let form = match dice.below(forms) {
            4 if states == 0 => 3,
            form => form,
        };
        let value = match form {
            1 | 2 if dice.once_in(8) => 250 + dice.below(6),
            1 | 2 => dice.below(4),
            4 => 1 + dice.below(states),
            _ => 0,
        };
        rows.extend([class, form as u32, value as u32]);
    }
    rows
}

/// So many state rows: tables of no glob.
pub(crate) fn states(dice: &mut Dice, count: usize) -> Vec<u32> {
    (0..3 * count)
        .map(|_| dice.below(count + 1) as u32)
        .collect()
}
