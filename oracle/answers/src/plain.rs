//! The plain build of the parser: the Rust's own answer.

use mitex_parser::syntax::{SyntaxElement, SyntaxNode};
use mitex_parser::Parser;
use rowan::{NodeOrToken, WalkEvent};
use sheet::{FINISH, LEAF, START};

use crate::fault::{message, End, Fault};
use crate::quiet::catch;
use crate::Spec;

/// A row of the plain tree: tag, kind and a leaf's text.
pub type PlainRow = (u32, u32, String);

/// The plain tree, where the parser gave one.
pub type Tree = Result<Vec<PlainRow>, End>;

/// What the assertion of refusal 5 says in parser.rs.
pub(crate) const GREEDY: &str = "GREEDY mismatched";

/// What rowan's assertion of refusal 6 says.
const UNMATCHED: &str = "checkpoint no longer valid, was an unmatched start_node_at called?";

/// The tree that the plain build gives, as rows, or how it panicked.
pub fn plain_tree(text: &str, spec: &Spec) -> Result<Tree, Fault> {
    let green = catch(|| Parser::new(text, spec.command_spec()).parse());
    match green {
        Ok(green) => Ok(Ok(rows(&SyntaxNode::new_root(green)))),
        Err(panic) => match message(&*panic).as_str() {
            GREEDY => Ok(Err(End::GreedyEnvironment)),
            UNMATCHED => Ok(Err(End::MarkBeforeNode)),
            other => Err(Fault::Parser(other.to_owned())),
        },
    }
}

fn rows(root: &SyntaxNode) -> Vec<PlainRow> {
    root.preorder_with_tokens().filter_map(row).collect()
}

fn row(event: WalkEvent<SyntaxElement>) -> Option<PlainRow> {
    let edge = |tag, node: SyntaxNode| Some((tag, node.kind() as u32, String::new()));
    match event {
        WalkEvent::Enter(NodeOrToken::Node(node)) => edge(START, node),
        WalkEvent::Leave(NodeOrToken::Node(node)) => edge(FINISH, node),
        WalkEvent::Enter(NodeOrToken::Token(leaf)) => {
            Some((LEAF, leaf.kind() as u32, leaf.text().to_owned()))
        }
        WalkEvent::Leave(NodeOrToken::Token(_)) => None,
    }
}
