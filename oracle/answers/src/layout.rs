//! From the order of writing to the order of the tree, in rowan's way: a stack of
//! finished children and one of open nodes.

use sheet::{Row, FINISH, START};
use tape::Write;

/// A node that is open: its kind, the place at which it was opened, and the count of
/// finished children before its first.
struct Open {
    kind: u16,
    place: usize,
    first: usize,
}

pub(crate) fn layout(writes: &[(Write, usize)]) -> Vec<Row> {
    let mut finished: Vec<Vec<Row>> = Vec::new();
    let mut open: Vec<Open> = Vec::new();
    for &(write, place) in writes {
        match write {
            Write::Start { kind } => {
                let first = finished.len();
                open.push(Open { kind, place, first });
            }
            Write::Wrap { kind, mark: first } => open.push(Open { kind, place, first }),
            Write::Leaf {
                kind,
                start,
                len,
                token,
            } => finished.push(vec![Row::leaf(kind.into(), start, len, token)]),
            Write::Finish => {
                let node = open.pop().expect("an open node");
                let inside = finished.split_off(node.first).concat();
                finished.push(closed(node, inside, place));
            }
        }
    }
    finished.concat()
}

/// The rows of a node that is closed at a place.
fn closed(node: Open, inside: Vec<Row>, place: usize) -> Vec<Row> {
    let kind = node.kind.into();
    let mut rows = vec![Row::edge(START, kind, node.place)];
    rows.extend(inside);
    rows.push(Row::edge(FINISH, kind, place));
    rows
}
