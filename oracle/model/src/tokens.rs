//! From a text to token rows, by document 02's request #103 and the patterns in token.rs: the
//! longest match, and of two that are as long the one with the higher priority.

use std::ops::Range;

use sheet::{Token, Tokenised};

use crate::checks::{TEXT, TOKENS};
use crate::commands::{command, run};
use crate::kinds::*;
use crate::refusal::refuse;
use crate::token_slip::TokenSlip;

/// What a pattern matches in front: so many bytes, and which of them are the token's text.
#[derive(Debug, Clone, PartialEq, Eq)]
pub(crate) struct Match {
    pub kind: u32,
    pub priority: u32,
    pub source: usize,
    pub text: Range<usize>,
}

impl Match {
    /// A match that is all text.
    fn new(kind: u32, priority: u32, source: usize) -> Self {
        Self {
            kind,
            priority,
            source,
            text: 0..source,
        }
    }
}

/// The tokens of a text into lent numbers. A refusal writes nothing.
pub fn tokenise(text: &[u8], numbers: &mut [u32], slip: Option<TokenSlip>) -> Tokenised {
    let slips = |this| slip == Some(this);
    let bytes = TEXT + usize::from(slips(TokenSlip::OneByteMore));
    let too_long = text.len() > bytes;
    if too_long && slips(TokenSlip::SizeFirst) {
        return refuse(1, 0);
    }
    let over = |from: usize| (from..text.len()).find(|&at| text[at] > 127);
    if let Some(place) = over(0) {
        let second = over(place + 1).filter(|_| slips(TokenSlip::SecondByte));
        return refuse(11, second.unwrap_or(place));
    }
    let rows = rows(text, slip);
    let most = TOKENS + usize::from(slips(TokenSlip::OneTokenMore));
    if too_long || rows.len() > most {
        return refuse(1, 0);
    }
    write(&rows, numbers, slip)
}

fn write(rows: &[Token], numbers: &mut [u32], slip: Option<TokenSlip>) -> Tokenised {
    let needed = Token::WIDTH * rows.len();
    let short = slip == Some(TokenSlip::RowShort) && numbers.len() + Token::WIDTH >= needed;
    let room = numbers.len() >= needed || short;
    if room || slip == Some(TokenSlip::WritesFirst) {
        for (numbers, row) in numbers.chunks_exact_mut(Token::WIDTH).zip(rows) {
            numbers.copy_from_slice(&row.numbers());
        }
    }
    match room {
        true => Ok(rows.len()),
        false => refuse(1, 0),
    }
}

fn rows(text: &[u8], slip: Option<TokenSlip>) -> Vec<Token> {
    let mut rows = Vec::new();
    let mut at = 0;
    while at < text.len() {
        let found = longest(&text[at..], slip);
        rows.push(Token {
            kind: found.kind,
            start: (at + found.text.start) as u32,
            len: found.text.len() as u32,
            shape: 0,
        });
        at += found.source;
    }
    rows
}

/// For patterns that name no priority: where they match, nothing else matches as much.
const USUAL: u32 = 2;

/// The longest match in front of what is left.
fn longest(left: &[u8], slip: Option<TokenSlip>) -> Match {
    let at_most = |this, bytes| match slip == Some(this) {
        true => bytes,
        false => left.len(),
    };
    let breaks = run(left, |byte| byte == b'\r' || byte == b'\n');
    let pair = 1 + usize::from(left.starts_with(b"\r\n"));
    let word = run(left, |byte| is_word(byte, slip));
    let dollars = run(left, |byte| byte == b'$').min(2);
    let new_line = if left.starts_with(br"\\") { 2 } else { 0 };
    let matches = [
        Match::new(
            LINE_BREAK,
            2,
            breaks.min(at_most(TokenSlip::OneBreak, pair)),
        ),
        Match::new(WHITESPACE, 1, run(left, is_blank)),
        Match::new(LINE_COMMENT, USUAL, comment(left, slip)),
        Match::new(WORD, 1, word.min(at_most(TokenSlip::ShortWord, 1))),
        Match::new(DOLLAR, USUAL, dollars.min(at_most(TokenSlip::OneDollar, 1))),
        Match::new(NEW_LINE, 4, new_line),
    ];
    let matches = matches.into_iter().filter(|found| found.source > 0);
    let all = matches.chain(mark(left)).chain(command(left, slip));
    all.max_by_key(|found| (found.source, found.priority))
        .expect("every byte begins a token")
}

/// `[^\S\r\n]`, of ASCII: white, and no line break.
fn is_blank(byte: u8) -> bool {
    matches!(byte, 0x09 | 0x0b | 0x0c | b' ')
}

/// What the Word's pattern leaves out besides white bytes.
const NO_WORD: &[u8] = br#"\%{},$[]()~/_*@'";&^#"#;

fn is_word(byte: u8, slip: Option<TokenSlip>) -> bool {
    let tab = byte == 0x0b && slip == Some(TokenSlip::VerticalTabInWord);
    let white = is_blank(byte) || byte == b'\r' || byte == b'\n';
    tab || !white && !NO_WORD.contains(&byte)
}

fn comment(left: &[u8], slip: Option<TokenSlip>) -> usize {
    if !left.starts_with(b"%") {
        return 0;
    }
    let length = run(left, |byte| byte != b'\r' && byte != b'\n');
    let takes_break = slip == Some(TokenSlip::CommentTakesBreak) && length < left.len();
    length + usize::from(takes_break)
}

/// The tokens that are one byte.
const MARKS: [(u8, u32); 17] = [
    (b'{', LEFT_CURLY),
    (b'[', LEFT_BRACKET),
    (b'(', LEFT_PAREN),
    (b'}', RIGHT_CURLY),
    (b']', RIGHT_BRACKET),
    (b')', RIGHT_PAREN),
    (b',', COMMA),
    (b'~', TILDE),
    (b'/', SLASH),
    (b'&', AMPERSAND),
    (b'^', CARET),
    (b'\'', APOSTROPHE),
    (b'"', DITTO),
    (b';', SEMICOLON),
    (b'#', HASH),
    (b'*', ASTERISK),
    (b'@', AT_SIGN),
];

fn mark(left: &[u8]) -> Option<Match> {
    if left.starts_with(b"_") {
        return Some(Match::new(UNDERSCORE, 2, 1));
    }
    let (_, kind) = MARKS.iter().find(|(byte, _)| left.starts_with(&[*byte]))?;
    Some(Match::new(*kind, USUAL, 1))
}
