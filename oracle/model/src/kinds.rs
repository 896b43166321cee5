//! Document 01's numbers of token kinds and tree kinds.

pub const LINE_BREAK: u32 = 0;
pub const WHITESPACE: u32 = 1;
pub const LINE_COMMENT: u32 = 2;
pub const LEFT_CURLY: u32 = 3;
pub const LEFT_BRACKET: u32 = 4;
pub const LEFT_PAREN: u32 = 5;
pub const RIGHT_CURLY: u32 = 6;
pub const RIGHT_BRACKET: u32 = 7;
pub const RIGHT_PAREN: u32 = 8;
pub const COMMA: u32 = 9;
pub const TILDE: u32 = 10;
pub const SLASH: u32 = 11;
pub const AMPERSAND: u32 = 12;
pub const CARET: u32 = 13;
pub const APOSTROPHE: u32 = 14;
pub const DITTO: u32 = 15;
pub const SEMICOLON: u32 = 16;
pub const HASH: u32 = 17;
pub const ASTERISK: u32 = 18;
pub const AT_SIGN: u32 = 19;
pub const UNDERSCORE: u32 = 20;
pub const WORD: u32 = 21;
pub const DOLLAR: u32 = 22;
pub const NEW_LINE: u32 = 23;
pub const ERROR: u32 = 24;
pub const MACRO_ARG: u32 = 25;
pub const GENERIC: u32 = 26;
pub const BEGIN_ENVIRONMENT: u32 = 27;
pub const END_ENVIRONMENT: u32 = 28;
pub const BEGIN_MATH: u32 = 29;
pub const END_MATH: u32 = 30;
pub const ERROR_BEGIN: u32 = 31;
pub const ERROR_END: u32 = 32;
pub const IF_FALSE: u32 = 33;
pub const IF_TYPST: u32 = 34;
pub const OTHER_IF: u32 = 35;
pub const ELSE: u32 = 36;
pub const END_IF: u32 = 37;
pub const LEFT: u32 = 38;
pub const RIGHT: u32 = 39;
pub const LAST: u32 = RIGHT;

pub const TREE_ERROR: u32 = 0;
pub const TREE_WORD: u32 = 13;
pub const TREE_COMMAND_SYM: u32 = 26;
pub const TREE_ARGUMENT: u32 = 28;
pub const TREE_CLAUSE_LR: u32 = 29;
pub const TREE_TEXT: u32 = 31;
pub const TREE_CURLY: u32 = 32;
pub const TREE_BRACKET: u32 = 33;
pub const TREE_PAREN: u32 = 34;
pub const TREE_CMD: u32 = 35;
pub const TREE_ENV: u32 = 36;
pub const TREE_LR: u32 = 37;
pub const TREE_BEGIN: u32 = 38;
pub const TREE_END: u32 = 39;
pub const TREE_BLOCK_COMMENT: u32 = 40;
pub const TREE_TYPST_CODE: u32 = 41;
pub const TREE_ATTACH: u32 = 42;
pub const TREE_FORMULA: u32 = 43;
pub const TREE_ROOT: u32 = 44;

/// The tree kind of a token's leaf.
const TREE_KINDS: [u32; 40] = [
    1, 2, 3, // line break, whitespace, comment
    4, 6, 8, // left curly, bracket, paren
    5, 7, 9, // right curly, bracket, paren
    10, 11, 12, 17, 22, 23, 24, 25, // comma to semicolon
    18, 19, 20, 21, // hash to underscore
    13, 14, 30, // word, dollar, new line
    0, 13, // error, macro argument
    27, 26, 26, 15, 16, 0, 0, // generic, environments, math, failed environments
    27, 27, 27, 27, 27, 27, 27, // if to right
];

pub fn tree_kind(token_kind: u32) -> u32 {
    TREE_KINDS[token_kind as usize]
}

pub fn is_trivia(kind: u32) -> bool {
    (LINE_BREAK..=LINE_COMMENT).contains(&kind)
}

pub fn is_command(kind: u32) -> bool {
    (GENERIC..=RIGHT).contains(&kind)
}
