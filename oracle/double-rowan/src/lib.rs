//! rowan, with a builder that writes to the tape instead of building.
//!
//! It counts finished children and open nodes as rowan's builder does, which is all
//! that its marks and its two assertions rest on.

pub use rowan::*;

use std::marker::PhantomData;

use tape::{MarkBeforeNode, Write};

/// The count of finished children at some moment.
#[derive(Debug, Clone, Copy)]
pub struct Checkpoint(usize);

/// Stands for the finished tree; the tape has it.
#[derive(Debug)]
pub struct GreenNode;

#[derive(Debug, Default)]
pub struct GreenNodeBuilder<'cache> {
    children: usize,
    /// Of each open node, the count of children before its first one.
    parents: Vec<usize>,
    cache: PhantomData<&'cache ()>,
}

impl GreenNodeBuilder<'_> {
    pub fn new() -> Self {
        Self::default()
    }

    pub fn token(&mut self, kind: SyntaxKind, text: &str) {
        tape::write(|tape| tape.leaf(kind.0, text));
        self.children += 1;
    }

    pub fn start_node(&mut self, kind: SyntaxKind) {
        tape::write(|tape| tape.start(Write::Start { kind: kind.0 }));
        self.parents.push(self.children);
    }

    pub fn finish_node(&mut self) {
        tape::write(|tape| tape.finish());
        self.children = self.parents.pop().expect("an open node") + 1;
    }

    pub fn checkpoint(&self) -> Checkpoint {
        tape::write(|tape| tape.settle());
        Checkpoint(self.children)
    }

    pub fn start_node_at(&mut self, checkpoint: Checkpoint, kind: SyntaxKind) {
        let Checkpoint(mark) = checkpoint;
        tape::write(|tape| tape.settle());
        assert!(mark <= self.children, "a mark past the last child");
        if self.parents.last().is_some_and(|&first| mark < first) {
            std::panic::panic_any(MarkBeforeNode);
        }
        let kind = kind.0;
        tape::write(|tape| tape.start(Write::Wrap { kind, mark }));
        self.parents.push(mark);
    }

    pub fn finish(self) -> GreenNode {
        assert_eq!((self.children, self.parents.len()), (1, 0), "one root");
        GreenNode
    }
}
