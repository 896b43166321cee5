//! Generated formulas, and the recorded list that is replayed without Rust at hand.

mod arguments;
mod case;
mod count;
mod damage;
pub mod dice;
mod grammar;
mod limits;
mod list;
mod named;
mod notation;
mod parts;
mod sequences;
mod smallest;
mod stream;

pub use case::{read_list, write_list, Case};
pub use count::Counts;
pub use limits::all as around_limits;
pub use list::{recorded_list, MOST_BYTES, SEED};
pub use named::{comment_formulas, inside_a_wrap, paper_formulas, Formula, FULL_ROOM};
pub use notation::notation;
pub use parts::used_shapes;
pub use sequences::all as all_sequences;
pub use smallest::smallest;
pub use stream::{by_chance, usual};
