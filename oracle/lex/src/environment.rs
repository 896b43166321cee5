//! The difference behind `\begin` and `\end`: which braces hold a name.

use crate::listed::{is_white, Listed};

/// Whether both differ in a `\begin` or an `\end` with this behind it.
///
/// The repository's lexer goes on behind white bytes and comments. It doesn't count the line
/// break that ends a comment, so it looks for the name as many bytes too far in front as
/// comments stand before the brace. With one or two it finds no name there.
pub(crate) fn environment(after: &[u8]) -> Option<Listed> {
    let before = Skipped::in_front(after);
    if after.get(before.bytes) != Some(&b'{') {
        return None;
    }
    let inside = &after[before.bytes + 1 - before.comments..];
    let name = name_there(inside);
    let behind = Skipped::in_front(&inside[name..]);
    if inside.get(name + behind.bytes) != Some(&b'}') {
        return is_name_here(after).then_some(Listed::BehindStar);
    }
    match name {
        _ if before.comments > 0 => Some(Listed::NameInComment),
        _ if before.bytes > 0 => Some(Listed::WhiteBeforeBrace),
        _ if behind.comments > 0 => Some(Listed::CommentBehindName),
        _ if behind.bytes > 0 => Some(Listed::WhiteBehindName),
        0 => Some(Listed::EmptyName),
        _ if inside[..name].contains(&b'@') => Some(Listed::AtInBraces),
        _ => None,
    }
}

/// White bytes and comments in front.
struct Skipped {
    bytes: usize,
    /// The comments among them that a line break ends.
    comments: usize,
}

impl Skipped {
    fn in_front(bytes: &[u8]) -> Self {
        let mut in_comment = false;
        let mut comments = 0;
        for (at, &byte) in bytes.iter().enumerate() {
            match byte {
                b'\r' | b'\n' if in_comment => {
                    in_comment = false;
                    comments += 1;
                }
                b'%' => in_comment = true,
                _ if in_comment || is_white(byte) => {}
                _ => {
                    return Self {
                        bytes: at,
                        comments,
                    }
                }
            }
        }
        let bytes = bytes.len();
        Self { bytes, comments }
    }
}

/// How long the name is there: letters and `@`, and a `*` at its end.
fn name_there(inside: &[u8]) -> usize {
    let goes_on = |byte: &u8| byte.is_ascii_alphabetic() || *byte == b'@';
    let name = inside.iter().take_while(|byte| goes_on(byte)).count();
    name + usize::from(inside.get(name) == Some(&b'*'))
}

/// Whether a name of letters and `*` stands here in braces.
fn is_name_here(after: &[u8]) -> bool {
    let mut bytes = after.iter();
    let opened = bytes.next() == Some(&b'{');
    let mut behind = bytes.skip_while(|&&byte| byte.is_ascii_alphabetic() || byte == b'*');
    opened && behind.next() == Some(&b'}') && after.get(1) != Some(&b'}')
}
