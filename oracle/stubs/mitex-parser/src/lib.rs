//! Stands for the parser's lib.rs, which is not among the sources: it names the
//! modules and gives the paths that they use of one another.

mod arg_match;
mod parser;
pub mod syntax;

pub use mitex_spec as spec;
pub use parser::Parser;
pub use spec::*;
