//! What one run of the recorded parser did, in order.
//!
//! The doubles of the lexer, of rowan's builder and of the glob matcher write to the
//! tape of their thread; whoever starts the run lays a fresh tape in and takes it out
//! again. The parser's own file knows nothing of it.

mod record;

pub use record::{Asked, Tape, Vanished, Write};

use std::cell::RefCell;

thread_local! {
    static TAPE: RefCell<Tape> = RefCell::default();
}

/// Lays in a fresh tape for a run over this text.
pub fn lay_in(source: &str) {
    TAPE.with(|tape| *tape.borrow_mut() = Tape::new(source));
}

/// Takes the tape out after a run, also after one that panicked.
pub fn take_out() -> Tape {
    TAPE.with(|tape| tape.take()).ended()
}

/// Lets a double write to the tape.
pub fn write<T>(f: impl FnOnce(&mut Tape) -> T) -> T {
    TAPE.with(|tape| f(&mut tape.borrow_mut()))
}

/// What the double of the builder panics with where document 01 refuses 6.
pub struct MarkBeforeNode;
