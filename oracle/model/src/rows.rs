//! Rows into lent buffers.

use sheet::{Counts, Row, FINISH, LEAF, START};

use crate::kinds::*;
use crate::refusal::{refuse, Step};
use crate::slip::Slip;

/// The nodes that may be open at once, root counted.
const OPEN_NODES: usize = 128;

/// A mark counts finished children and remembers the row that was next.
#[derive(Debug, Clone, Copy)]
pub(crate) struct Mark {
    children: usize,
    row: usize,
}

struct Node {
    kind: u32,
    /// The count of finished children before its first one.
    first: usize,
    /// Its start row.
    row: usize,
}

pub(crate) struct Rows<'b> {
    tree: &'b mut [u32],
    dropped: &'b mut [u32],
    rows: usize,
    leaves: usize,
    drops: usize,
    children: usize,
    open: Vec<Node>,
    slip: Option<Slip>,
}

impl<'b> Rows<'b> {
    pub fn new(tree: &'b mut [u32], dropped: &'b mut [u32], slip: Option<Slip>) -> Self {
        Self {
            tree,
            dropped,
            rows: 0,
            leaves: 0,
            drops: 0,
            children: 0,
            open: Vec::new(),
            slip,
        }
    }

    pub fn counts(&self) -> Counts {
        Counts {
            rows: self.rows,
            dropped: self.drops,
        }
    }

    pub fn mark(&self) -> Mark {
        Mark {
            children: self.children,
            row: self.rows,
        }
    }

    pub fn start(&mut self, kind: u32, place: usize) -> Step {
        self.open(kind, self.mark(), place)
    }

    /// Opens a node that begins at a mark.
    pub fn wrap(&mut self, kind: u32, mark: Mark, place: usize) -> Step {
        let node = self.open.last().expect("the root is open");
        if mark.children < node.first {
            return refuse(6, place);
        }
        let outside = self.slip == Some(Slip::WrapOutside);
        let row = if mark.children > node.first || outside {
            mark.row
        } else {
            node.row + 1
        };
        self.open(kind, Mark { row, ..mark }, place)
    }

    fn open(&mut self, kind: u32, mark: Mark, place: usize) -> Step {
        if self.open.len() == OPEN_NODES {
            return refuse(7, place);
        }
        let start = Row::edge(START, kind, self.token_of_start(kind, mark.row, place));
        self.insert(mark.row, start, place)?;
        self.open.push(Node {
            kind,
            first: mark.children,
            row: mark.row,
        });
        Ok(())
    }

    /// The fifth number of an opening is its place. Only a slip has another.
    fn token_of_start(&self, kind: u32, row: usize, place: usize) -> usize {
        match self.slip {
            Some(Slip::WrapHasFirstLeaf) if kind == TREE_ARGUMENT => {
                self.first_leaf(row).unwrap_or(place)
            }
            Some(Slip::SkippedHasNext) if [TREE_BLOCK_COMMENT, TREE_TYPST_CODE].contains(&kind) => {
                place + 1
            }
            _ => place,
        }
    }

    /// The token of the first leaf from a row on.
    fn first_leaf(&self, row: usize) -> Option<usize> {
        let rows = &self.tree[Row::WIDTH * row..Row::WIDTH * self.rows];
        let mut rows = rows.chunks(Row::WIDTH).map(Row::of);
        let leaf = rows.find(|row| row.tag == LEAF)?;
        Some(leaf.token as usize)
    }

    /// A leaf has its own token; the place is where a refusal would stand.
    pub fn leaf(&mut self, leaf: Row, place: usize) -> Step {
        self.insert(self.rows, leaf, place)?;
        self.leaves += 1;
        self.children += 1;
        Ok(())
    }

    pub fn finish(&mut self, place: usize) -> Step {
        let node = self.open.pop().expect("an open node");
        self.children = node.first + 1;
        let token = place + usize::from(self.slip == Some(Slip::FinishHasNext));
        self.insert(self.rows, Row::edge(FINISH, node.kind, token), place)
    }

    pub fn drop(&mut self, token: usize, reason: u32) {
        let at = 3 * self.drops;
        self.dropped[at..at + 3].copy_from_slice(&[token as u32, reason, self.leaves as u32]);
        self.drops += 1;
    }

    /// Moves the rows from `at` on down by one and writes a row there.
    fn insert(&mut self, at: usize, row: Row, place: usize) -> Step {
        if self.rows == Row::room(self.tree.len()) {
            return refuse(8, place);
        }
        let [from, behind, end] = [at, at + 1, self.rows].map(|row| Row::WIDTH * row);
        self.tree.copy_within(from..end, behind);
        self.tree[from..behind].copy_from_slice(&row.numbers());
        self.rows += 1;
        Ok(())
    }
}
