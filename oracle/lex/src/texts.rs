//! Which texts are taken.

use cases::dice::Dice;

use crate::chance;

/// All ASCII texts of up to so many bytes are taken.
const SHORT_BYTES: u32 = 3;

/// How many those are.
pub const SHORT: usize = 1 + 128 + 128 * 128 + 128 * 128 * 128;

/// All texts of up to so many bytes that matter there are taken behind `\end`.
const BEHIND_END: u32 = 5;

/// One text in so many is read with a specification that has no names.
const NO_NAMES: usize = 8;

/// Texts without end, each with whether the specification has no names: all short ones, those
/// around the limits, all short ones behind `\end`, then texts by chance.
pub fn texts(seed: u64) -> impl Iterator<Item = (String, bool)> {
    let behind_end = (0..=BEHIND_END).flat_map(all_behind_end);
    let named = all_short().chain(around_limits()).chain(behind_end);
    named.map(|text| (text, false)).chain(by_chance(seed))
}

/// Texts by chance without end.
pub fn by_chance(seed: u64) -> impl Iterator<Item = (String, bool)> {
    let mut dice = Dice::new(seed);
    std::iter::from_fn(move || {
        let text = chance::text(&mut dice);
        Some((text, dice.once_in(NO_NAMES)))
    })
}

/// As many bytes or tokens as are allowed, one fewer and one more.
pub fn around_limits() -> impl Iterator<Item = String> {
    let words = "a".repeat(998) + "\n,";
    let bytes = (534..=536).map(move |more| words.repeat(65) + &"a".repeat(more));
    let tokens = (7..=9).map(|more| EIGHT_TOKENS.repeat(2_047) + &",".repeat(more));
    bytes.chain(tokens)
}

/// They end in a comma behind a line break, which is always a token.
pub(crate) const EIGHT_TOKENS: &str = ",,,,,,\n,";

/// All ASCII texts of up to three bytes.
pub fn all_short() -> impl Iterator<Item = String> {
    let of_length = |length: u32| (0..128_u32.pow(length)).map(move |number| short(number, length));
    (0..=SHORT_BYTES).flat_map(of_length)
}

fn short(number: u32, length: u32) -> String {
    let byte = |at: u32| char::from((number >> (7 * at)) as u8 & 0x7f);
    (0..length).rev().map(byte).collect()
}

/// All texts of so many bytes, of those that matter there, behind `\end`.
pub fn all_behind_end(length: u32) -> impl Iterator<Item = String> {
    let of_number = move |number: usize| {
        let byte = |at: u32| char::from(b"{}%\n a*@"[number >> (3 * at) & 7]);
        r"\end".chars().chain((0..length).map(byte)).collect()
    };
    (0..8_usize.pow(length)).map(of_number)
}
