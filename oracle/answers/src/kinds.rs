//! Document 01's numbers of the token kinds.

use mitex_lexer::{BraceKind, CommandName, IfCommandName, Token};

pub(crate) const BEGIN_ENVIRONMENT: u32 = 27;
pub(crate) const END_ENVIRONMENT: u32 = 28;

pub(crate) fn number(token: Token) -> u32 {
    match token {
        Token::LineBreak => 0,
        Token::Whitespace => 1,
        Token::LineComment => 2,
        Token::Left(brace) => 3 + brace_number(brace),
        Token::Right(brace) => 6 + brace_number(brace),
        Token::Comma => 9,
        Token::Tilde => 10,
        Token::Slash => 11,
        Token::Ampersand => 12,
        Token::Caret => 13,
        Token::Apostrophe => 14,
        Token::Ditto => 15,
        Token::Semicolon => 16,
        Token::Hash => 17,
        Token::Asterisk => 18,
        Token::AtSign => 19,
        Token::Underscore => 20,
        Token::Word => 21,
        Token::Dollar => 22,
        Token::NewLine => 23,
        Token::Error => 24,
        Token::MacroArg(_) => 25,
        Token::CommandName(name) => command_number(name),
    }
}

fn brace_number(brace: BraceKind) -> u32 {
    match brace {
        BraceKind::Curly => 0,
        BraceKind::Bracket => 1,
        BraceKind::Paren => 2,
    }
}

fn command_number(name: CommandName) -> u32 {
    match name {
        CommandName::Generic => 26,
        CommandName::BeginEnvironment => BEGIN_ENVIRONMENT,
        CommandName::EndEnvironment => END_ENVIRONMENT,
        CommandName::BeginMath => 29,
        CommandName::EndMath => 30,
        CommandName::ErrorBeginEnvironment => 31,
        CommandName::ErrorEndEnvironment => 32,
        CommandName::If(IfCommandName::IfFalse) => 33,
        CommandName::If(IfCommandName::IfTypst) => 34,
        CommandName::If(_) => 35,
        CommandName::Else => 36,
        CommandName::EndIf => 37,
        CommandName::Left => 38,
        CommandName::Right => 39,
    }
}
