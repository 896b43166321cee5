//! Each kind of difference has a text that shows it and nothing else, and nothing shorter
//! inside it does. Left out, or told where there is none, it is found.

use answers::token_rows;
use lex::{by_chance, difference, listed, Held, Known, Listed, SHAPES};
use model::tokenise;

fn known() -> Known {
    Known::new(SHAPES.parse().expect("shapes"))
}

/// The model in the place of the port: what is tested here is the list.
fn held<'h>(list: lex::Lister<'h>) -> Held<'h> {
    Held {
        tokenise: &|text, numbers| tokenise(text, numbers, None),
        listed: list,
    }
}

/// The differences in a text.
fn told(text: &str) -> Vec<Listed> {
    let same = difference(text, &known(), held(&listed)).expect("no panic");
    same.unwrap_or_else(|said| panic!("{text:?}: {said}")).told
}

/// The smallest texts found, and the first token of each of the two: kind, start, length.
fn example(kind: Listed) -> (&'static str, [u32; 3], [u32; 3]) {
    match kind {
        Listed::LoneBackslash => (r"\", [24, 0, 1], [26, 0, 1]),
        Listed::WhiteName => (r"\ ", [26, 0, 2], [26, 0, 1]),
        Listed::AtInName => (r"\@a", [26, 0, 2], [26, 0, 3]),
        Listed::StarredName => (r"\f*", [26, 0, 2], [26, 0, 3]),
        Listed::IfStar => (r"\ifstar", [35, 0, 7], [26, 0, 7]),
        Listed::BehindStar => (r"\end{*a}", [28, 5, 2], [32, 0, 4]),
        Listed::EmptyName => (r"\end{}", [32, 0, 4], [28, 5, 0]),
        Listed::AtInBraces => (r"\end{@}", [32, 0, 4], [28, 5, 1]),
        Listed::WhiteBeforeBrace => (r"\end {}", [32, 0, 4], [28, 6, 0]),
        Listed::WhiteBehindName => (r"\end{ }", [32, 0, 4], [28, 5, 0]),
        Listed::CommentBehindName => ("\\end{%\n}", [32, 0, 4], [28, 5, 0]),
        Listed::NameInComment => ("\\end%\n%\n%}\n{", [32, 0, 4], [28, 9, 0]),
    }
}

#[test]
fn each_kind_has_a_smallest_example() {
    for kind in Listed::ALL {
        let (text, here, there) = example(kind);
        assert_eq!(told(text), [kind], "{text:?}");
        for at in 0..text.len() {
            let shorter = format!("{}{}", &text[..at], &text[at + 1..]);
            assert!(!told(&shorter).contains(&kind), "{shorter:?}");
        }
        let mut numbers = vec![0; 4 * text.len()];
        tokenise(text.as_bytes(), &mut numbers, None).expect("no refusal");
        assert_eq!(numbers[..3], here, "{text:?}");
        let rust = token_rows(text, &known().spec).expect("no panic");
        assert_eq!(rust[0].numbers()[..3], there, "{text:?}");
    }
}

/// The Rust doesn't count the line break that ends a comment: behind a name, as many bytes of
/// the source come again as tokens.
#[test]
fn behind_comments_the_sources_end_comes_again() {
    let rust = |text: &str| -> Vec<[u32; 3]> {
        let rows = token_rows(text, &known().spec).expect("no panic");
        let row = |token: sheet::Token| [token.kind, token.start, token.len];
        rows.into_iter().map(row).collect()
    };
    let (brace, line_break) = (6, 0);
    assert_eq!(rust("\\end{a }"), [[28, 5, 1]]);
    assert_eq!(rust("\\end{a%\n}"), [[28, 5, 1], [brace, 8, 1]]);
    let two = [[28, 5, 1], [line_break, 9, 1], [brace, 10, 1]];
    assert_eq!(rust("\\end{a%\n%\n}"), two);
}

#[test]
fn no_difference_that_looks_like_one() {
    let same = [
        r"\@",
        r"\@*",
        r"\g*",
        r"\ifstars",
        r"\@1",
        r"\begin{a*}",
        r"\begin{*}",
        r"\begin{ a}",
        r"\begin%c",
        "\\begin%\n{a}",
        "\\begin%\n%\n{a}",
        "\\begin%\n%\n%a\n{b}",
        r"\begin{a}}",
        r"\begin[]",
        r"\\@a",
        r"\%@",
    ];
    for text in same {
        // Without names that have a star.
        let known = Known::new("f=fixed1".parse().expect("shapes"));
        let same = difference(text, &known, held(&listed)).expect("no panic");
        assert_eq!(same.map(|same| same.told), Ok(vec![]), "{text:?}");
    }
}

#[test]
fn a_kind_that_is_left_out_is_found() {
    for kind in Listed::ALL {
        let without =
            |rest: &[u8], starred: &[String]| listed(rest, starred).filter(|&told| told != kind);
        let (text, ..) = example(kind);
        let said = difference(text, &known(), held(&without)).expect("no panic");
        let said = said.expect_err("a difference");
        assert!(said.contains("not told"), "{said}");
        let found = by_chance(1).take(5_000).any(|(text, _)| {
            let said = difference(&text, &known(), held(&without)).expect("no panic");
            said.is_err()
        });
        assert!(found, "{kind:?}");
    }
}

#[test]
fn a_kind_that_is_told_too_often_is_found() {
    // As if the star were enough, whatever the specification has.
    let too_often = |rest: &[u8], starred: &[String]| match rest {
        [b'\\', letter, b'*', ..] if letter.is_ascii_alphabetic() => Some(Listed::StarredName),
        _ => listed(rest, starred),
    };
    let said = difference(r"a\g*", &known(), held(&too_often)).expect("no panic");
    let said = said.expect_err("a difference");
    assert!(said.ends_with("at 1, told as StarredName"), "{said}");
}
