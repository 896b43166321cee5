//! Command names, `\begin{name}` and `\end{name}`, in document 02's words (#103).

use crate::kinds::*;
use crate::token_slip::TokenSlip;
use crate::tokens::Match;

/// The command's pattern in token.rs has this priority.
const PRIORITY: u32 = 3;

/// How many bytes in front are such.
pub(crate) fn run(left: &[u8], is_such: impl Fn(u8) -> bool) -> usize {
    left.iter().take_while(|&&byte| is_such(byte)).count()
}

/// "A backslash with the longest run of letters, else with one byte, else alone".
pub(crate) fn command(left: &[u8], slip: Option<TokenSlip>) -> Option<Match> {
    let behind = left.strip_prefix(br"\")?;
    let letters = run(behind, |byte| byte.is_ascii_alphabetic());
    let mut name = letters.max(behind.len().min(1));
    let white = matches!(behind, [9..=13 | b' ', ..]);
    if slip == Some(TokenSlip::BlankIsNoName) && white {
        name = 0;
    }
    if slip == Some(TokenSlip::SpellingInFront) && behind.starts_with(b"iffalse") {
        name = 7;
    }
    let kind = match slip {
        Some(TokenSlip::BlankIsNoName) if white => GENERIC,
        Some(TokenSlip::BlankNameIsWord) if white => WORD,
        Some(TokenSlip::IfStarIsGeneric) if &behind[..name] == b"ifstar" => GENERIC,
        _ => spelled(&behind[..name]),
    };
    let named = match kind {
        ERROR_BEGIN => in_braces(BEGIN_ENVIRONMENT, 1 + name, left, slip),
        ERROR_END => in_braces(END_ENVIRONMENT, 1 + name, left, slip),
        _ => None,
    };
    Some(named.unwrap_or(Match {
        kind,
        priority: PRIORITY,
        source: 1 + name,
        text: 0..1 + name,
    }))
}

/// "`\(` and `\[` begin math, `\)` and `\]` end it"; "the other spellings of the
/// `IfCommandName` cases in lower case get their kinds; the rest is Generic".
fn spelled(name: &[u8]) -> u32 {
    match name {
        b"" => ERROR,
        b"(" | b"[" => BEGIN_MATH,
        b")" | b"]" => END_MATH,
        b"iffalse" => IF_FALSE,
        b"iftypst" => IF_TYPST,
        b"else" => ELSE,
        b"fi" => END_IF,
        b"left" => LEFT,
        b"right" => RIGHT,
        b"if" | b"iftrue" | b"ifcase" | b"ifnum" | b"ifcat" | b"ifx" | b"ifvoid" | b"ifhbox"
        | b"ifvbox" | b"ifhmode" | b"ifmmode" | b"ifvmode" | b"ifinner" | b"ifdim" | b"ifeof"
        | b"ifstar" => OTHER_IF,
        b"begin" => ERROR_BEGIN,
        b"end" => ERROR_END,
        _ => GENERIC,
    }
}

/// "The name being letters or `*`, one or more", in braces behind so many bytes: the name is
/// the text, and the source goes to the `}`.
fn in_braces(kind: u32, word: usize, left: &[u8], slip: Option<TokenSlip>) -> Option<Match> {
    let slips = |this| slip == Some(this);
    let blanks = match slips(TokenSlip::BlankBeforeBrace) {
        true => run(&left[word..], |byte| byte == b' '),
        false => 0,
    };
    let start = word + blanks + 1;
    let inside = left[word + blanks..].strip_prefix(b"{")?;
    let mut name = run(inside, |byte| byte.is_ascii_alphabetic() || byte == b'*');
    let first_star = inside[..name].iter().position(|&byte| byte == b'*');
    if let Some(star) = first_star.filter(|_| slips(TokenSlip::OneStar)) {
        name = star + 1;
    }
    let named = name > 0 || slips(TokenSlip::EmptyName);
    if !named || !inside[name..].starts_with(b"}") {
        return None;
    }
    let braces = usize::from(slips(TokenSlip::TextHasBraces));
    Some(Match {
        kind,
        priority: PRIORITY,
        source: start + name + 1,
        text: start - braces..start + name + braces,
    })
}
