//! The formulas that have a place in some document: those of document 01, those that show
//! how it and document 02 are read, and those that the comments of the Rust quote.

use answers::{Fault, Run, Spec};
use sheet::Row;

use crate::Case;

/// The largest room of a case, in numbers: as many rows as `treelist` has, and four numbers
/// over that make no row.
pub const FULL_ROOM: u32 = 16_384;

/// A formula with its shapes, the room to give it and what is said of it.
pub struct Formula {
    pub text: String,
    pub shapes: &'static str,
    pub room: u32,
    pub said: &'static str,
}

fn formula(text: impl Into<String>, shapes: &'static str, said: &'static str) -> Formula {
    Formula {
        text: text.into(),
        shapes,
        room: FULL_ROOM,
        said,
    }
}

impl Formula {
    fn with_room(self, room: u32) -> Self {
        Self { room, ..self }
    }

    fn with_rows(self, rows: usize) -> Self {
        self.with_room((Row::WIDTH * rows) as u32)
    }

    pub fn spec(&self) -> Spec {
        self.shapes.parse().expect("shapes of a named formula")
    }

    pub fn run(&self) -> Result<Run, Fault> {
        Run::of(&self.text, &self.spec())
    }

    pub fn case(&self) -> Result<Case, Fault> {
        Ok(Case::of(&self.run()?, self.room))
    }
}

/// The formulas of document 01 in its order, then those of the readings, those with a refusal
/// inside a wrap last.
pub fn paper_formulas() -> Vec<Formula> {
    let formulas = [to_check(), by_reading(), inside_a_wrap()];
    formulas.into_iter().flatten().collect()
}

#[rustfmt::skip]
fn to_check() -> Vec<Formula> {
    vec![
        formula("", "", "root, 2 rows"),
        formula("'", "", "a plain leaf"),
        formula("a_b", "", "11 rows"),
        formula("a_b", "", "with 54 numbers of room: refused 8 at 3").with_room(54),
        formula("a_b", "", "with 55 accepted").with_room(55),
        formula("a_^b", "", "16 rows"),
        formula("{a_}", "", "the `}` is an Error in the script"),
        formula("a_\\f12^c", "f=fixed2", "the second Attach has no Arg"),
        formula("a_\\z^c", "", "it has one, around the first Attach"),
        formula("{x}{a}_\\o b", "o=infix", "refused 6 at 7"),
        formula("{a}_\\o b", "o=infix", "accepted"),
        formula("\\d 1\\\\2", "d=greedy", "one argument to the end"),
        formula("\\begin{k}\\d 1\\\\2\\end{k}", "d=greedy", "inside an environment it stops before `\\\\`"),
        formula("\\iffalse a\\if b\\fi c\\fi d", "", "dropped (0,2,0), (9,3,8)"),
        formula("\\iffalse a", "", "accepted, one dropped"),
        formula("\\s[3]{a}", "s=glob:{,b}t", "Bracket and Curly are arguments"),
        formula("\\s[3]{a}", "s=fixed1", "`[` alone is the argument"),
        formula("\\begin{h}", "h=env-greedy", "refused 5 at 1"),
        formula("\\iffalse\\begin{h}", "h=env-greedy", "accepted"),
        formula("{".repeat(127), "", "accepted"),
        formula("{".repeat(128), "", "refused 7 at 127"),
        formula(format!("\\f {}", "x".repeat(256)), "f=fixed255", "one `x` is left as Text"),
        formula("\\frac 1 2", "frac=fixed2", "the case of treelist"),
    ]
}

#[rustfmt::skip]
fn by_reading() -> Vec<Formula> {
    vec![
        formula("\\f xy", "f=fixed2", "fifth numbers 0 0 0 2 2 2 2 2 3 3 3, which are the places"),
        formula("__\\l", "l=left1", "refused 6"),
        formula("a_^\\l", "l=left1", "accepted, with the mark's row before the node's"),
        formula("\\begin{m} \\end{m}", "m=env-fixed1", "the `\\end` is the argument"),
        formula("{".repeat(126) + "a_", "", "refused 7 at 127, from the inner Arg"),
        formula("{".repeat(126) + "&_\\l", "l=left1", "refused 6 at 128, where 7 would be next"),
        formula("a_\\e^c", "e=range0", "range 0 clears last, so the second Attach has no Arg"),
        formula("a_\\e^c", "e=fixed0", "fixed 0 is no shape"),
        formula("a_\\e^c", "e=none", "form 0 is no shape"),
        formula("\\begin{f}{1}", "f=fixed1", "class 1 on a `\\begin` counts as no shape"),
        formula("\\m{1}", "m=env-fixed1", "class 2 on a command counts as no shape"),
        formula("a_1\\l", "l=left1", "left1 wraps from last"),
        formula("\\f 1 ", "f=fixed2", "what is left of the held follows the command"),
        formula("$", "", "a lone `$`"),
        formula("x\\o y", "o=infix", "fifth numbers 0 1 1 0 0 1 1 1 2 2 3 3 4 4 4 4"),
        formula("\\f x &", "f=fixed2", "fifth numbers 0 0 0 2 2 3 4 3 4 5"),
    ]
}

/// Refusals before, between and behind the two openings of a wrap, which are judged one by
/// one.
#[rustfmt::skip]
pub fn inside_a_wrap() -> Vec<Formula> {
    let deep = "{".repeat(126) + "a_";
    vec![
        formula("a_b", "", "room for 4 rows, none for the wrap: refused 8 at 1").with_rows(4),
        formula("a_b", "", "room for 5 rows, one for the wrap's first opening: refused 8 at 1").with_rows(5),
        formula("a_b", "", "room for 6 rows, for both openings of the wrap: refused 8 at 1").with_rows(6),
        formula("a_b", "", "room for 7 rows, for the wrap and no leaf behind it: refused 8 at 1").with_rows(7),
        formula(deep.as_str(), "", "room for 256 rows, none for the wrap: refused 8 at 127").with_rows(256),
        formula(deep.as_str(), "", "room for 257 rows, one for the wrap's first opening: refused 7 at 127").with_rows(257),
    ]
}

const SHAPES: &str = "displaystyle=greedy frac=fixed2 hat=fixed1 limits=left1 over=infix \
    sqrt=glob:{,b}t documentclass=fixed1 alpha=none matrix=env-none";

/// The formulas that the comments of the Rust quote, with the shapes they speak of.
#[rustfmt::skip]
pub fn comment_formulas() -> Vec<Formula> {
    let quoted = [
        ("parser.rs", "$...$"),
        ("parser.rs", "$$...$$"),
        ("parser.rs", "\\(..\\)"),
        ("parser.rs", "\\[..\\]"),
        ("parser.rs", "\\begin{...}...\\end{...}"),
        ("parser.rs", "\\left...\\right"),
        ("parser.rs", "{...}"),
        ("parser.rs", "[...]"),
        ("parser.rs", "(...)"),
        ("parser.rs", "\\end{}"),
        ("parser.rs", "\\begin{matrix} \\displaystyle 1 \\\\ 3 \\\\ \\end{matrix}"),
        ("parser.rs", "\\displaystyle \\frac{1}{2} \\\\ \\frac{1}{2}"),
        ("parser.rs", "\\left. \\displaystyle \\frac{1}{2} \\\\ \\frac{1}{2} \\right."),
        ("parser.rs", "\\begin{matrix}\\frac{1} \\\\ {2}\\end{matrix}"),
        ("arg_match.rs", "\\alpha"),
        ("arg_match.rs", "\\hat x y"),
        ("arg_match.rs", "1 \\sum\\limits"),
        ("arg_match.rs", "\\over"),
        ("arg_match.rs", "\\displaystyle"),
        ("arg_match.rs", "\\sqrt"),
        ("arg_match.rs", "\\sqrt[3]"),
        ("arg_match.rs", "\\sqrt[3]{a}"),
        ("arg_match.rs", "\\sqrt{a}"),
        ("mitex-spec", "\\sqrt{2}{3}"),
        ("mitex-spec", "\\sqrt[1]{2}{2}"),
        ("mitex-spec", "\\hat"),
        ("mitex-spec", "\\sum"),
        ("syntax.rs", "\\documentclass{article}"),
        ("syntax.rs", "$"),
        ("token.rs", "% This is a comment"),
        ("token.rs", "\\;"),
        ("token.rs", "\\ "),
        ("token.rs", "\\\\"),
        ("token.rs", "\\"),
    ];
    quoted.iter().map(|(file, text)| formula(*text, SHAPES, file)).collect()
}
