//! The parts that formulas are put together from, and the shapes that their commands
//! have. Words are made of digits, so that a command's name ends where it should.

use answers::{token_rows, Class, Fault, Form, Spec};

use crate::dice::Dice;

/// One part at least for each token kind that the lexer makes, each form and each scope.
pub const PARTS: [&str; 52] = [
    " ",
    "\n",
    "%9\n",
    "{",
    "}",
    "[",
    "]",
    "(",
    ")",
    ",",
    "~",
    "/",
    "&",
    "^",
    "'",
    "\"",
    ";",
    "#",
    "*",
    "@",
    "_",
    "1",
    "23",
    "é4",
    "$",
    "$$",
    "\\\\",
    "\\u",
    "\\z",
    "\\f",
    "\\g",
    "\\e",
    "\\d",
    "\\o",
    "\\l",
    "\\s",
    "\\begin{m}",
    "\\begin{k}",
    "\\begin{h}",
    "\\begin{j}",
    "\\end{m}",
    "\\(",
    "\\)",
    "\\begin",
    "\\end",
    "\\iffalse",
    "\\iftypst",
    "\\if",
    "\\else",
    "\\fi",
    "\\left",
    "\\right",
];

/// More parts, for formulas that are put together by chance.
pub const MORE_PARTS: [&str; 34] = [
    "\\[",
    "\\]",
    "\\n",
    "\\r",
    "\\q",
    "\\w",
    "\\x",
    "\\f*",
    "\\g*",
    "\\m",
    "\\;",
    "\\ ",
    "\\",
    "\\begin{f}",
    "\\begin{i}",
    "\\begin{v}",
    "\\begin{y}",
    "\\begin{}",
    "\\begin {m*} ",
    "\\end{}",
    "\\end{k}",
    "\\ifnum",
    "\\@ifstar",
    "\\left.",
    "\\right)",
    "ß",
    "漢語5",
    "𝒳6😀",
    "0\u{301}7",
    "\u{3000}",
    "\u{a0}\u{2028}",
    "\r\n",
    "123456789",
    "%\r",
];

/// The shapes of the names above. `\u` and a `\m` have none, and a class that doesn't
/// fit counts as none.
const SHAPES: &str = "z=none n=fixed0 f=fixed2 g=fixed1 f*=fixed1 r=range2 e=range0 d=greedy \
    o=infix l=left1 s=glob:{,b}t q=glob:{,b}{,p}{t,tt} w=glob:* x=glob:[tb]p \
    m=env-fixed1 k=env-none h=env-greedy j=env-glob:{,b}t i=env-range2 v=env-range0 y=env-fixed0";

/// Kinds that are commands of their own, with a shape: on `\iffalse`, `\iftypst`,
/// `\left` and `\end` it is ignored.
const SHAPES_OF_KINDS: &str = "if=fixed1 else=left1 fi=glob:{,b}t right=infix @ifstar=greedy \
    iffalse=greedy iftypst=fixed1 left=infix";

pub fn usual_shapes() -> Spec {
    SHAPES.parse().expect("the usual shapes")
}

pub fn shapes_of_kinds() -> Spec {
    let mut spec = usual_shapes();
    let more: Spec = SHAPES_OF_KINDS.parse().expect("the shapes of kinds");
    spec.shapes.extend(more.shapes);
    spec
}

const GLOBS: [&str; 8] = [
    "{,b}t",
    "t",
    "bt",
    "{t,b,p}",
    "*",
    "[tb]*",
    "{,b}{,b}{,p}tt",
    "?p?",
];

/// The same names with other shapes, and some with none.
pub fn shapes_by_chance(dice: &mut Dice) -> Spec {
    let mut spec = shapes_of_kinds();
    spec.shapes.retain(|_| !dice.once_in(6));
    for named in &mut spec.shapes {
        if dice.once_in(2) {
            named.form = form_by_chance(dice, named.class);
        }
    }
    spec
}

fn form_by_chance(dice: &mut Dice, class: Class) -> Form {
    match dice.below(if class == Class::Command { 9 } else { 7 }) {
        0 => Form::None,
        1 => Form::Fixed(dice.below(4) as u8),
        2 => Form::Range(dice.below(4) as u8),
        3 => Form::Greedy,
        4..=6 => Form::Glob(dice.pick(&GLOBS).to_owned()),
        7 => Form::Left1,
        _ => Form::Infix,
    }
}

/// The shapes that some token of the text has, in the same order.
pub fn used_shapes(text: &str, spec: &Spec) -> Result<Spec, Fault> {
    let tokens = token_rows(text, spec)?;
    let used = |number: u32| tokens.iter().any(|token| token.shape == number);
    let numbered = (1..).zip(&spec.shapes);
    let kept = numbered.filter(|(number, _)| used(*number));
    Ok(Spec {
        shapes: kept.map(|(_, named)| named.clone()).collect(),
    })
}
