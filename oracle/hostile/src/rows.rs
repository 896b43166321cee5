//! Rows that no run gives, for the questions: delimiters by chance, among starts and finishes
//! that need not balance.

use cases::dice::Dice;
use sheet::{Row, FINISH, LEAF, START};

use crate::questions::{answers_differ, Answers, Asked};

/// Every delimiter of a formula.
pub const TEXT: &[u8] = br"$$\(\)\[\]";

/// Where each stands in the text, how long it is, and its kind.
const DELIMITERS: [[u32; 3]; 6] = [
    [0, 1, 14],
    [0, 2, 14],
    [2, 2, 15],
    [4, 2, 16],
    [6, 2, 15],
    [8, 2, 16],
];

/// The kinds of a formula's node and of a text's.
pub const FORMULA: u32 = 43;
const ITEM_TEXT: u32 = 31;

/// Some rows over a text. Neither has room behind its end, so that a read past it can be seen.
#[derive(Debug, Clone)]
pub struct Rows {
    pub text: Box<[u8]>,
    pub tree: Box<[u32]>,
}

impl Rows {
    pub fn by_chance(dice: &mut Dice) -> Self {
        // Of a shorter text some delimiters lie outside.
        let length = match dice.once_in(3) {
            true => dice.below(TEXT.len()),
            false => TEXT.len(),
        };
        let mut tree = Vec::new();
        for _ in 0..dice.below(3) {
            tree.extend(row(dice));
        }
        tree.extend([START, FORMULA, 0, 0, 0]);
        for _ in 0..dice.below(5) {
            tree.extend(row(dice));
        }
        // No question asks what kind a finish names.
        tree.extend([FINISH, dice.below(45) as u32, 0, 0, 0]);
        for _ in 0..dice.below(3) {
            tree.extend(row(dice));
        }
        // What is left over behind the last whole row is no row.
        let over = dice.below(Row::WIDTH);
        tree.extend(&[START, FORMULA, 0, 0, 0][..over]);
        Self {
            text: TEXT[..length].into(),
            tree: tree.into(),
        }
    }

    /// The answers about each row and some that are not there, or how they differ from the
    /// model's.
    pub fn difference(&self, asked: Asked) -> Result<Vec<Answers>, String> {
        let rows = self.tree.len() / Row::WIDTH;
        let outside = [rows, rows + 1, usize::MAX / Row::WIDTH, usize::MAX];
        (0..rows)
            .chain(outside)
            .map(|at| answers_differ(&self.text, &self.tree, at, asked))
            .collect()
    }
}

/// A row as formulas have them, and now and then one of any tag, kind and range.
fn row(dice: &mut Dice) -> [u32; Row::WIDTH] {
    let token = dice.number() as u32;
    if dice.once_in(12) {
        let mut any = || [0, 1, 2, 3, 14, FORMULA, u32::MAX][dice.below(7)];
        return [any(), any(), any(), any(), token];
    }
    match dice.below(6) {
        0 => [START, ITEM_TEXT, 0, 0, token],
        1 => [FINISH, ITEM_TEXT, 0, 0, token],
        2 => [START, FORMULA, 0, 0, token],
        _ => {
            let [start, len, kind] = DELIMITERS[dice.below(DELIMITERS.len())];
            [LEAF, kind, start, len, token]
        }
    }
}
