//! The rows of a tree as insertions into one Vec, in the order of writing.

use sheet::{Row, FINISH, START};
use tape::Write;

/// A row's numbers.
pub type Numbers = [u32; Row::WIDTH];

/// Where a row goes in, and the row.
pub type Insertion = (usize, Numbers);

/// A node that is open: its kind, the count of finished children before its first, and
/// its start row.
struct Open {
    kind: u32,
    first: usize,
    row: usize,
}

/// The insertions that give the tree of these writes.
pub fn insertions(writes: &[(Write, usize)]) -> Vec<Insertion> {
    let mut open: Vec<Open> = Vec::new();
    // The first row of each finished child, as rowan stacks them.
    let mut children: Vec<usize> = Vec::new();
    let mut made = Vec::new();
    for &(write, place) in writes {
        let rows = made.len();
        match write {
            Write::Start { kind } => {
                open.push(opened(kind, children.len(), rows));
                made.push((rows, Row::edge(START, kind.into(), place).numbers()));
            }
            Write::Wrap { kind, mark } => {
                let row = children.get(mark).copied().unwrap_or(rows);
                children[mark..].iter_mut().for_each(|first| *first += 1);
                open.push(opened(kind, mark, row));
                made.push((row, Row::edge(START, kind.into(), place).numbers()));
            }
            Write::Leaf {
                kind,
                start,
                len,
                token,
            } => {
                children.push(rows);
                made.push((rows, Row::leaf(kind.into(), start, len, token).numbers()));
            }
            Write::Finish => {
                let node = open.pop().expect("an open node");
                children.truncate(node.first);
                children.push(node.row);
                made.push((rows, Row::edge(FINISH, node.kind, place).numbers()));
            }
        }
    }
    made
}

fn opened(kind: u16, first: usize, row: usize) -> Open {
    let kind = kind.into();
    Open { kind, first, row }
}

/// The plain program: each row goes into the Vec at its place.
#[inline(never)]
pub fn insert_all(rows: &mut Vec<Numbers>, insertions: &[Insertion]) {
    rows.clear();
    for &(at, row) in insertions {
        rows.insert(at, row);
    }
}
