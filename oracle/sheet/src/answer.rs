//! What a run gives back.

use crate::{Ran, Refusal};

/// The tag of a row that opens a node.
pub const START: u32 = 0;
/// The tag of a row that holds a text.
pub const LEAF: u32 = 1;
/// The tag of a row that closes a node.
pub const FINISH: u32 = 2;

/// A row of the tree. `start` and `len` are 0 unless it is a leaf.
#[derive(Debug, Clone, Copy, PartialEq, Eq)]
pub struct Row {
    pub tag: u32,
    pub kind: u32,
    pub start: u32,
    pub len: u32,
    /// A leaf's own token; of another row the first token that was not wholly read just
    /// before the row was made.
    pub token: u32,
}

/// A token that no leaf holds.
#[derive(Debug, Clone, Copy, PartialEq, Eq)]
pub struct Dropped {
    pub token: u32,
    /// 1 trivia, 2 opener, 3 closer.
    pub reason: u32,
    pub leaves: u32,
}

/// The whole answer to a run.
#[derive(Debug, Clone, PartialEq, Eq)]
pub enum Answer {
    Accepted {
        rows: Vec<Row>,
        dropped: Vec<Dropped>,
    },
    Refused {
        number: u32,
        place: u32,
    },
}

impl Answer {
    /// The answer of a run that wrote to these buffers.
    pub fn of(ran: Ran, tree: &[u32], dropped: &[u32]) -> Self {
        match ran {
            Ok(counts) => Answer::Accepted {
                rows: tree
                    .chunks_exact(Row::WIDTH)
                    .take(counts.rows)
                    .map(Row::of)
                    .collect(),
                dropped: dropped
                    .chunks(3)
                    .take(counts.dropped)
                    .map(Dropped::of)
                    .collect(),
            },
            Err(Refusal { number, place }) => Answer::Refused {
                number,
                place: place as u32,
            },
        }
    }
}

impl Row {
    /// So many numbers make a row.
    pub const WIDTH: usize = 5;

    /// The row of these numbers, in the order of the fields.
    pub fn of(numbers: &[u32]) -> Self {
        Row {
            tag: numbers[0],
            kind: numbers[1],
            start: numbers[2],
            len: numbers[3],
            token: numbers[4],
        }
    }

    /// The row of a start or a finish.
    pub fn edge(tag: u32, kind: u32, token: usize) -> Self {
        Row {
            tag,
            kind,
            start: 0,
            len: 0,
            token: token as u32,
        }
    }

    /// The row of a leaf.
    pub fn leaf(kind: u32, start: usize, len: usize, token: usize) -> Self {
        let [start, len, token] = [start, len, token].map(|number| number as u32);
        Row {
            tag: LEAF,
            kind,
            start,
            len,
            token,
        }
    }

    pub fn numbers(self) -> [u32; Row::WIDTH] {
        [self.tag, self.kind, self.start, self.len, self.token]
    }

    /// The rows that a tree buffer of so many numbers has room for.
    pub const fn room(numbers: usize) -> usize {
        numbers / Row::WIDTH
    }

    /// So many numbers for these rows, and in most cases some over that make no row: a
    /// comparison at every count of rows then tells a room that is not rounded down.
    pub const fn numbers_for(rows: usize) -> usize {
        rows * Row::WIDTH + rows % Row::WIDTH
    }
}

impl Dropped {
    /// The row of three numbers.
    pub fn of(numbers: &[u32]) -> Self {
        Dropped {
            token: numbers[0],
            reason: numbers[1],
            leaves: numbers[2],
        }
    }
}
