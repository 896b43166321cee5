//! Where the repository's lexer cuts otherwise than 02's words, told from the bytes in front
//! alone. It is what docs/DIFFERENCES.md says, and calls neither of the two.

use crate::environment::environment;

/// A kind of difference.
#[derive(Debug, Clone, Copy, PartialEq, Eq)]
pub enum Listed {
    LoneBackslash,
    WhiteName,
    AtInName,
    StarredName,
    IfStar,
    BehindStar,
    EmptyName,
    AtInBraces,
    WhiteBeforeBrace,
    WhiteBehindName,
    CommentBehindName,
    NameInComment,
}

impl Listed {
    pub const ALL: [Listed; 12] = [
        Listed::LoneBackslash,
        Listed::WhiteName,
        Listed::AtInName,
        Listed::StarredName,
        Listed::IfStar,
        Listed::BehindStar,
        Listed::EmptyName,
        Listed::AtInBraces,
        Listed::WhiteBeforeBrace,
        Listed::WhiteBehindName,
        Listed::CommentBehindName,
        Listed::NameInComment,
    ];

    /// The difference in words.
    pub fn says(self) -> &'static str {
        match self {
            Listed::LoneBackslash => "a backslash at the end: here Error, there Generic",
            Listed::WhiteName => "a backslash before a white byte: that is the name, there none",
            Listed::AtInName => {
                "an @ at the front of a name or behind its letters: it goes on there"
            }
            Listed::StarredName => "a name with * that the specification has: one token there",
            Listed::IfStar => r"\ifstar: here an if, there Generic",
            Listed::BehindStar => "braces with more behind the first *: here a name, there none",
            Listed::EmptyName => "empty braces: here no name, there an empty one",
            Listed::AtInBraces => "braces with an @: here no name, there one",
            Listed::WhiteBeforeBrace => "white bytes before the brace: here no name, there one",
            Listed::WhiteBehindName => "white bytes behind the name: here no name, there one",
            Listed::CommentBehindName => {
                "comments behind the name: here no name, there one, and the source's end again"
            }
            Listed::NameInComment => {
                "three comments or more before the brace: here no name, there one out of a comment"
            }
        }
    }
}

/// Whether both differ in the token in front, for a specification that has these names with
/// a star.
pub fn listed(rest: &[u8], starred: &[String]) -> Option<Listed> {
    let behind = rest.strip_prefix(br"\")?;
    match behind {
        [] => return Some(Listed::LoneBackslash),
        [byte, ..] if is_white(*byte) => return Some(Listed::WhiteName),
        _ => {}
    }
    let letters = behind.iter().take_while(|byte| byte.is_ascii_alphabetic());
    let (name, after) = match behind {
        [b'@', ..] => behind.split_at(1),
        _ => behind.split_at(letters.count()),
    };
    match (name, after) {
        (b"", _) => None,
        (_, [b'@', ..]) => Some(Listed::AtInName),
        (b"@", [byte, ..]) if byte.is_ascii_alphabetic() => Some(Listed::AtInName),
        (_, [b'*', ..]) if is_starred(name, starred) => Some(Listed::StarredName),
        (b"ifstar", _) => Some(Listed::IfStar),
        (b"begin" | b"end", _) => environment(after),
        _ => None,
    }
}

/// Whether the specification has a name with a star behind it.
fn is_starred(name: &[u8], starred: &[String]) -> bool {
    let with_star = |known: &String| known.as_bytes().strip_suffix(b"*") == Some(name);
    starred.iter().any(with_star)
}

/// Blanks and line breaks.
pub(crate) fn is_white(byte: u8) -> bool {
    matches!(byte, 0x09..=0x0d | b' ')
}
