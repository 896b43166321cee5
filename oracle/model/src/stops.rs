//! Where a list stops, by its scope.

use crate::kinds::*;

#[derive(Debug, Clone, Copy, PartialEq, Eq)]
pub(crate) enum Scope {
    Root,
    Dollar,
    Cmd,
    Environment,
    Lr,
    Curly,
    Bracket,
    Paren,
}

impl Scope {
    pub fn stops(self, kind: u32) -> bool {
        let kinds: &[u32] = match self {
            Scope::Root => &[],
            Scope::Dollar => &[RIGHT_CURLY, END_ENVIRONMENT, RIGHT, DOLLAR],
            Scope::Cmd => &[RIGHT_CURLY, END_ENVIRONMENT, RIGHT, END_MATH],
            Scope::Environment => &[RIGHT_CURLY, END_ENVIRONMENT],
            Scope::Lr => &[RIGHT_CURLY, END_ENVIRONMENT, RIGHT],
            Scope::Curly => &[RIGHT_CURLY],
            Scope::Bracket => &[RIGHT_CURLY, RIGHT_BRACKET, END_ENVIRONMENT, RIGHT],
            Scope::Paren => &[RIGHT_CURLY, RIGHT_PAREN, END_ENVIRONMENT, RIGHT],
        };
        kinds.contains(&kind)
    }

    /// The node of a group with this scope, and the token that closes it.
    pub fn group(self) -> (u32, u32) {
        match self {
            Scope::Curly => (TREE_CURLY, RIGHT_CURLY),
            Scope::Bracket => (TREE_BRACKET, RIGHT_BRACKET),
            Scope::Paren => (TREE_PAREN, RIGHT_PAREN),
            Scope::Dollar => (TREE_FORMULA, DOLLAR),
            Scope::Cmd => (TREE_FORMULA, END_MATH),
            _ => unreachable!("not the scope of a group"),
        }
    }
}
