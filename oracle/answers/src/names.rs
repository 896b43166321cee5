//! Names for document 01's numbers, for people to read.

const TOKENS: [&str; 40] = [
    "LineBreak",
    "Whitespace",
    "LineComment",
    "LeftCurly",
    "LeftBracket",
    "LeftParen",
    "RightCurly",
    "RightBracket",
    "RightParen",
    "Comma",
    "Tilde",
    "Slash",
    "Ampersand",
    "Caret",
    "Apostrophe",
    "Ditto",
    "Semicolon",
    "Hash",
    "Asterisk",
    "AtSign",
    "Underscore",
    "Word",
    "Dollar",
    "NewLine",
    "Error",
    "MacroArg",
    "Generic",
    "BeginEnvironment",
    "EndEnvironment",
    "BeginMath",
    "EndMath",
    "ErrorBeginEnvironment",
    "ErrorEndEnvironment",
    "IfFalse",
    "IfTypst",
    "If",
    "Else",
    "EndIf",
    "Left",
    "Right",
];

const FORMS: [&str; 7] = ["none", "fixed", "range", "greedy", "glob", "left1", "infix"];

/// The name of a token kind.
pub fn token_kind(kind: u32) -> &'static str {
    TOKENS[kind as usize]
}

/// The name of a form of shape.
pub fn form(form: u32) -> &'static str {
    FORMS[form as usize]
}

/// The name of a tree kind, as the Rust spells it.
pub fn tree_kind(kind: u32) -> String {
    let kind = mitex_parser::syntax::SyntaxKind::from(rowan::SyntaxKind(kind as u16));
    format!("{kind:?}")
}
