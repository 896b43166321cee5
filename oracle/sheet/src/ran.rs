//! What a run over lent buffers answers, and what a tokeniser does; the rows themselves stand
//! in the buffers.

/// How many rows were written.
#[derive(Debug, Clone, Copy, PartialEq, Eq)]
pub struct Counts {
    pub rows: usize,
    pub dropped: usize,
}

/// A number of refusal with its place.
#[derive(Debug, Clone, Copy, PartialEq, Eq)]
pub struct Refusal {
    pub number: u32,
    pub place: usize,
}

pub type Ran = Result<Counts, Refusal>;

/// So many token rows were written, or none.
pub type Tokenised = Result<usize, Refusal>;
