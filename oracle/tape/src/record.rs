//! The tape itself.

use std::ops::Range;

/// A row in the order of writing. A wrap's row is written behind rows that it then
/// stands before, so this is not the order of the tree.
#[derive(Debug, Clone, Copy, PartialEq, Eq)]
pub enum Write {
    Start {
        kind: u16,
    },
    /// An opening at a mark, which counts finished children.
    Wrap {
        kind: u16,
        mark: usize,
    },
    /// A text, with the token that it comes from. A held token is wholly read before its
    /// leaf is written, so this is not always the row's place.
    Leaf {
        kind: u16,
        start: usize,
        len: usize,
        token: usize,
    },
    Finish,
}

/// A token that the parser took from the lexer and of which it wrote no leaf.
#[derive(Debug, Clone, Copy, PartialEq, Eq)]
pub struct Vanished {
    pub token: usize,
    pub reason: u32,
    /// The leaves that were written before it.
    pub leaves: usize,
    start: usize,
}

/// A question to the glob matcher.
#[derive(Debug, Clone, PartialEq, Eq)]
pub struct Asked {
    pub glob: String,
    pub path: String,
    pub verdict: bool,
}

/// A token that was taken from the lexer, before it shows what becomes of it.
#[derive(Debug)]
struct Eaten {
    token: usize,
    reason: u32,
    text: Range<usize>,
}

#[derive(Debug, Default)]
pub struct Tape {
    source: String,
    /// Where the source lies in memory: texts that the parser hands on are told by it.
    base: usize,
    /// The token that the lexer stands at, and what is left of its text.
    cursor: usize,
    present: Range<usize>,
    /// How much of what is left was written as characters and not yet consumed.
    taken: usize,
    eaten: Option<Eaten>,
    leaves: usize,
    /// The rows, each with its place.
    pub writes: Vec<(Write, usize)>,
    pub vanished: Vec<Vanished>,
    pub asked: Vec<Asked>,
    open: usize,
    pub deepest: usize,
    /// How many rows stood when a 129th node was opened.
    pub too_deep: Option<usize>,
}

/// The nodes that may be open at once, by document 01.
const OPEN_NODES: usize = 128;

impl Tape {
    pub(crate) fn new(source: &str) -> Self {
        Self {
            source: source.to_owned(),
            base: source.as_ptr() as usize,
            ..Self::default()
        }
    }

    /// The first token that is not wholly read. A Word whose last character was
    /// written is read, though the lexer moves on later.
    pub fn place(&self) -> usize {
        let whole = self.taken > 0 && self.taken == self.present.len();
        self.cursor + usize::from(whole)
    }

    /// Another step came, so the token that was taken last has no leaf: it is held or
    /// dropped. A held one is struck from the list again when its leaf comes.
    pub fn settle(&mut self) {
        if let Some(eaten) = self.eaten.take() {
            assert_ne!(eaten.reason, 0, "token {} vanished", eaten.token);
            self.vanished.push(Vanished {
                token: eaten.token,
                reason: eaten.reason,
                leaves: self.leaves,
                start: eaten.text.start,
            });
        }
    }

    /// The lexer stands at a token's text, or at a rest of it.
    pub fn stand(&mut self, text: Option<&str>) {
        self.present = text.map_or(0..0, |text| self.range(text));
        self.taken = 0;
    }

    /// The lexer gave a token away. The reason is the one it would be dropped for, 0
    /// if it never is.
    pub fn eat(&mut self, text: &str, reason: u32) {
        self.settle();
        self.eaten = Some(Eaten {
            token: self.cursor,
            reason,
            text: self.range(text),
        });
        self.cursor += 1;
    }

    /// The lexer consumes that much of a Word, and with it the Word if it is all.
    pub fn consume(&mut self, count: usize) {
        self.settle();
        assert_eq!(self.taken, count, "characters are written, then consumed");
        if self.taken == self.present.len() {
            self.cursor += 1;
        }
    }

    pub fn start(&mut self, write: Write) {
        self.settle();
        if self.open == OPEN_NODES && self.too_deep.is_none() {
            self.too_deep = Some(self.writes.len());
        }
        self.open += 1;
        self.deepest = self.deepest.max(self.open);
        self.writes.push((write, self.place()));
    }

    pub fn finish(&mut self) {
        self.settle();
        self.open -= 1;
        self.writes.push((Write::Finish, self.place()));
    }

    pub fn leaf(&mut self, kind: u16, text: &str) {
        let (text, token, place) = match self
            .eaten
            .take_if(|eaten| self.base + eaten.text.start == text.as_ptr() as usize)
        {
            Some(eaten) => (eaten.text, eaten.token, eaten.token),
            None => {
                self.settle();
                let place = self.place();
                let (text, token) = if self.lies_inside(text) {
                    self.unhold(text)
                } else {
                    self.character(text)
                };
                (text, token, place)
            }
        };
        let write = Write::Leaf {
            kind,
            start: text.start,
            len: text.len(),
            token,
        };
        self.writes.push((write, place));
        self.leaves += 1;
    }

    /// A held token's leaf came after all: its text and the token.
    fn unhold(&mut self, text: &str) -> (Range<usize>, usize) {
        let range = self.range(text);
        let held = self.vanished.iter().rposition(|v| v.start == range.start);
        let held = self.vanished.remove(held.expect("a leaf of a held token"));
        assert_eq!(held.reason, 1, "only trivia is held");
        (range, held.token)
    }

    /// A character that the parser copied out of the present Word: its text and the token.
    fn character(&mut self, text: &str) -> (Range<usize>, usize) {
        let start = self.present.start + self.taken;
        let range = start..start + text.len();
        assert_eq!(&self.source[range.clone()], text, "a character of the Word");
        self.taken += text.len();
        (range, self.cursor)
    }

    pub(crate) fn ended(mut self) -> Self {
        self.settle();
        self
    }

    fn lies_inside(&self, text: &str) -> bool {
        let at = text.as_ptr() as usize;
        self.base <= at && at + text.len() <= self.base + self.source.len()
    }

    fn range(&self, text: &str) -> Range<usize> {
        assert!(self.lies_inside(text), "a text of the source");
        let start = text.as_ptr() as usize - self.base;
        start..start + text.len()
    }
}
