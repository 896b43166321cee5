//! Texts: characters of every length, and bytes that are none.

use cases::dice::Dice;

/// The first and the last character of each length, and those beside the surrogates.
const CHARACTERS: [char; 14] = [
    'a',
    '1',
    '\0',
    '\u{7f}',
    '\u{80}',
    '\u{7ff}',
    '\u{800}',
    '漢',
    '\u{d7ff}',
    '\u{e000}',
    '\u{ffff}',
    '\u{10000}',
    '😀',
    '\u{10ffff}',
];

/// Bytes that are no character: a tail alone, heads without tails, overlong forms, a
/// surrogate, one over U+10FFFF.
const BROKEN: [&[u8]; 12] = [
    b"\x80",
    b"\xbf",
    b"\xc2",
    b"\xc0\xaf",
    b"\xc1\xbf",
    b"\xe0\x9f\xbf",
    b"\xed\xa0\x80",
    b"\xef\xbf",
    b"\xf0\x8f\xbf\xbf",
    b"\xf4\x90\x80\x80",
    b"\xf5\x80\x80\x80",
    b"\xff",
];

/// So many characters, and now and then something that is none.
pub(crate) fn text(dice: &mut Dice, characters: usize) -> Vec<u8> {
    let broken = dice.once_in(4);
    let mut text = Vec::new();
    for _ in 0..characters {
        if broken && dice.once_in(10) {
            text.extend(BROKEN[dice.below(BROKEN.len())]);
        } else if dice.once_in(3) {
            let character = CHARACTERS[dice.below(CHARACTERS.len())];
            text.extend(character.to_string().as_bytes());
        } else {
            text.push(b'a' + dice.below(26) as u8);
        }
    }
    text
}
