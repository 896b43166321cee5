//! What the program `treelist` has room for.

/// The longest sheet that it reads, in bytes.
pub const SHEET_BYTES: usize = 32_768;

/// The rows of its tree buffer.
pub const TREE_ROWS: usize = 3_276;
