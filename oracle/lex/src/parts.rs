//! The parts that texts by chance are made of: what a tokeniser has a rule for, and near misses.

use cases::dice::Dice;

/// The shapes of some commands. What the lexer asks is whether a name with a star is there.
pub const SHAPES: &str = "f=fixed1 f*=fixed2 m=env-fixed1 m*=env-none @*=none \
    begin*=greedy ifstar*=none fi*=left1 a@b*=none x=none left=infix";

/// Names with a kind of their own, and some without.
const NAMES: [&str; 34] = [
    "if", "iftypst", "iffalse", "iftrue", "ifcase", "ifnum", "ifcat", "ifx", "ifvoid", "ifhbox",
    "ifvbox", "ifhmode", "ifmmode", "ifvmode", "ifinner", "ifdim", "ifeof", "ifstar", "@ifstar",
    "else", "fi", "left", "right", "begin", "end", "f", "m", "x", "a", "@", "a@b", "frac", "IF",
    "Begin",
];

const MARKS: [&str; 26] = [
    "{", "}", "[", "]", "(", ")", ",", "~", "/", "&", "^", "'", "\"", ";", "#", "*", "@", "_", "$",
    "$$", r"\\", r"\(", r"\)", r"\[", r"\]", r"\",
];

const BLANKS: [&str; 10] = [
    " ", "  ", "\t", "\x0b", "\x0c", "\n", "\r", "\r\n", "\n\n", " \n ",
];

const WORDS: [&str; 12] = [
    "a", "b", "Z", "ab", "begin", "1", "23", "+-=", "|.:", "\x00", "\x7f", "a1",
];

/// What stands in comments: also what would end a name in braces.
const COMMENTS: [&str; 12] = [
    "", "", "c", "}", "a}", "b*}", "@}", "a }", "{", "%", r"\", r"\end{a}",
];

const BREAKS: [&str; 4] = ["\n", "\n", "\r", "\r\n"];

/// What stands in braces: mostly letters.
const IN_BRACES: [&str; 10] = ["a", "b", "m", "Z", "xyz", "*", "*", "@", "1", " "];

/// Puts a part behind a text.
pub(crate) fn part(dice: &mut Dice, text: &mut String) {
    match dice.below(14) {
        0..=3 => command(dice, text),
        4..=6 => environment(dice, text),
        7 | 8 => *text += dice.pick(&MARKS),
        9 | 10 => *text += dice.pick(&BLANKS),
        11 => comment(dice, text),
        12 => *text += dice.pick(&WORDS),
        _ => text.push(any(dice)),
    }
}

fn any(dice: &mut Dice) -> char {
    char::from(dice.below(128) as u8)
}

/// A command, now and then misspelled or with something behind it.
fn command(dice: &mut Dice, text: &mut String) {
    text.push('\\');
    if dice.once_in(5) {
        text.push(any(dice));
        return;
    }
    let mut name = dice.pick(&NAMES).to_owned();
    match dice.below(10) {
        0 => drop(name.pop()),
        1 => name.push('x'),
        2 => name = name.to_uppercase(),
        3 => name.insert(dice.below(name.len() + 1), '@'),
        4 | 5 => name.push('*'),
        6 => name.insert(dice.below(name.len() + 1), any(dice)),
        _ => {}
    }
    *text += &name;
}

/// `\begin{name}` or `\end{name}`, or what comes near it.
fn environment(dice: &mut Dice, text: &mut String) {
    *text += dice.pick(&[r"\begin", r"\end"]);
    gap(dice, text);
    *text += dice.pick(&["{", "{", "{", "{", "{", "{", "[", ""]);
    for _ in 0..dice.below(4) {
        *text += dice.pick(&IN_BRACES);
    }
    gap(dice, text);
    *text += dice.pick(&["}", "}", "}", "}", "}", "}", "]", ""]);
}

/// Mostly nothing; else some blanks and comments.
fn gap(dice: &mut Dice, text: &mut String) {
    let most = if dice.once_in(3) { 6 } else { 1 };
    for _ in 0..dice.below(most) {
        match dice.once_in(3) {
            true => *text += dice.pick(&BLANKS),
            false => comment(dice, text),
        }
    }
}

/// A comment, mostly with the line break behind it.
fn comment(dice: &mut Dice, text: &mut String) {
    text.push('%');
    *text += dice.pick(&COMMENTS);
    if !dice.once_in(12) {
        *text += dice.pick(&BREAKS);
    }
}
