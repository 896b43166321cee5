//! The questions about the formulas of the Rust's tree: its own three answers, and document
//! 02's strict one, asked of rowan's node.

use mitex_parser::syntax::SyntaxKind::{TokenBeginMath, TokenDollar, TokenEndMath};
use mitex_parser::syntax::{FormulaItem, SyntaxNode};
use mitex_parser::Parser;
use rowan::ast::AstNode;
use rowan::NodeOrToken;

use crate::Spec;

/// The formulas of a tree in its order, and for each whether the Rust calls it a
/// display formula, an inline formula, valid; and whether it is whole.
pub fn formula_questions(text: &str, spec: &Spec) -> Vec<[bool; 4]> {
    let green = Parser::new(text, spec.command_spec()).parse();
    let formulas = SyntaxNode::new_root(green).descendants();
    formulas
        .filter_map(FormulaItem::cast)
        .map(|item| {
            [
                item.is_display(),
                item.is_inline(),
                item.is_valid(),
                is_whole(item.syntax()),
            ]
        })
        .collect()
}

/// The strict question of document 02, which the source doesn't have, asked of rowan's node:
/// its first and last child are different tokens that match as opener and closer.
fn is_whole(formula: &SyntaxNode) -> bool {
    let first = formula.first_child_or_token();
    let last = formula.last_child_or_token();
    let (Some(NodeOrToken::Token(first)), Some(NodeOrToken::Token(last))) = (first, last) else {
        return false;
    };
    let ends = [(first.kind(), first.text()), (last.kind(), last.text())];
    first.index() != last.index()
        && matches!(
            ends,
            [(TokenDollar, "$"), (TokenDollar, "$")]
                | [(TokenDollar, "$$"), (TokenDollar, "$$")]
                | [(TokenBeginMath, "\\("), (TokenEndMath, "\\)")]
                | [(TokenBeginMath, "\\["), (TokenEndMath, "\\]")]
        )
}
