//! The tables that document 01 lets in, the rows that it lets out with the fifth number of
//! document 02, and the bytes of a sheet. Nothing here knows of mitex.

mod answer;
mod bytes;
mod listing;
mod ran;
mod tables;
mod treelist;

pub use answer::{Answer, Dropped, Row, FINISH, LEAF, START};
pub use bytes::{Bytes, Unread};
pub use listing::listing;
pub use ran::{Counts, Ran, Refusal, Tokenised};
pub use tables::{Shape, State, Tables, Token};
pub use treelist::{SHEET_BYTES, TREE_ROWS};
