//! The state of a run: where it reads, the list it is in, what it holds.

use std::ops::Range;

use sheet::{Counts, Row, Shape, Tables};

use crate::kinds::*;
use crate::refusal::Step;
use crate::rows::{Mark, Rows};
use crate::slip::Slip;
use crate::stops::Scope;

/// A list's scope and its two marks.
#[derive(Clone, Copy)]
pub(crate) struct List {
    pub scope: Scope,
    pub start: Option<Mark>,
    pub last: Option<Mark>,
}

pub(crate) struct Reader<'t, 'b> {
    pub tables: &'t Tables,
    pub rows: Rows<'b>,
    /// The first token not wholly read, and the bytes of it that were.
    pub at: usize,
    pub taken: u32,
    pub list: List,
    /// Trivia that was passed and may yet be dropped or written.
    pub held: Range<usize>,
    slip: Option<Slip>,
}

impl<'t, 'b> Reader<'t, 'b> {
    pub fn new(tables: &'t Tables, rows: Rows<'b>, slip: Option<Slip>) -> Self {
        let list = List {
            scope: Scope::Root,
            start: None,
            last: None,
        };
        Self {
            tables,
            rows,
            at: 0,
            taken: 0,
            list,
            held: 0..0,
            slip,
        }
    }

    pub fn read(mut self) -> Step<Counts> {
        self.start(TREE_ROOT)?;
        self.list(Scope::Root)?;
        self.finish()?;
        Ok(self.rows.counts())
    }

    pub fn slips(&self, slip: Slip) -> bool {
        self.slip == Some(slip)
    }

    /// Whether the present list stops before a token of this kind.
    pub fn stops(&self, kind: u32) -> bool {
        let scope = self.list.scope;
        let slips = self.slips(Slip::Stop {
            scope: scope as u32,
            kind,
        });
        scope.stops(kind) != slips
    }

    pub fn kind(&self) -> Option<u32> {
        (self.at < self.tables.token_count()).then(|| self.tables.token(self.at).kind)
    }

    /// The shape of the present token, if it is of the class that is looked for.
    pub fn shape(&self, class: u32) -> Option<Shape> {
        let number = self.tables.token(self.at).shape as usize;
        let shape = number.checked_sub(1).map(|index| self.tables.shape(index));
        shape.filter(|shape| shape.class == class)
    }

    pub fn start(&mut self, kind: u32) -> Step {
        self.rows.start(kind, self.at)
    }

    pub fn finish(&mut self) -> Step {
        self.rows.finish(self.at)
    }

    /// Opens a node at a mark and gives it what is there as its first argument.
    pub fn wrap(&mut self, kind: u32, mark: Mark) -> Step {
        self.rows.wrap(kind, mark, self.at)?;
        self.rows.wrap(TREE_ARGUMENT, mark, self.at)?;
        self.finish()
    }

    /// What is left of the present token becomes a leaf.
    pub fn eat(&mut self) -> Step {
        self.eat_as(tree_kind(self.tables.token(self.at).kind))
    }

    pub fn eat_as(&mut self, kind: u32) -> Step {
        let left = self.tables.token(self.at).len - self.taken;
        self.take(kind, left)
    }

    /// The next character of the present Word becomes a leaf.
    pub fn eat_char(&mut self) -> Step {
        let token = self.tables.token(self.at);
        let lead = self.tables.text[(token.start + self.taken) as usize];
        let len = match lead {
            0..=0x7f => 1,
            0x80..=0xdf => 2,
            0xe0..=0xef => 3,
            0xf0..=0xff => 4,
        };
        self.take(TREE_WORD, len)
    }

    fn take(&mut self, kind: u32, len: u32) -> Step {
        let token = self.tables.token(self.at);
        let start = token.start + self.taken;
        let leaf = Row::leaf(kind, start as usize, len as usize, self.at);
        self.rows.leaf(leaf, self.at)?;
        self.taken += len;
        if self.taken == token.len {
            self.pass();
        }
        Ok(())
    }

    fn pass(&mut self) {
        self.at += 1;
        self.taken = 0;
    }

    /// The present token is dropped.
    pub fn drop(&mut self, reason: u32) {
        self.rows.drop(self.at, reason);
        self.pass();
    }

    /// The present token is held.
    pub fn hold(&mut self) {
        if self.held.is_empty() {
            self.held = self.at..self.at;
        }
        self.pass();
        self.held.end = self.at;
    }

    /// What is held is dropped as trivia.
    pub fn drop_held(&mut self) {
        for token in std::mem::take(&mut self.held) {
            self.rows.drop(token, 1);
        }
    }

    /// What is held is written. It was read before, so the place is past it, while each
    /// leaf has its own token.
    pub fn write_held(&mut self) -> Step {
        for index in std::mem::take(&mut self.held) {
            let token = self.tables.token(index);
            let (start, len) = (token.start as usize, token.len as usize);
            let own = match self.slips(Slip::HeldHasPlace) {
                true => self.at,
                false => index,
            };
            let leaf = Row::leaf(tree_kind(token.kind), start, len, own);
            self.rows.leaf(leaf, self.at)?;
        }
        Ok(())
    }

    pub fn eat_trivia(&mut self) -> Step {
        while self.kind().is_some_and(is_trivia) {
            self.eat()?;
        }
        Ok(())
    }
}
