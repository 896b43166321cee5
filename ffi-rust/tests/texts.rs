//! Texts into token rows through the static library: the rows of small formulas, refusals at their limits and one over, and what every call promises.
mod guarded;
#[path = "guarded/numbers.rs"]
mod numbers;

use cartglaze::{tokenise, Answer, Tables, Tokenised, TOKEN_ROW, TREE_ROW};
use guarded::{guarded, lend_numbers, refused, BEFORE};
use numbers::Numbers;

/// The most bytes and tokens that a text may have.
const BYTES: usize = 65_535;
const TOKENS: usize = 16_384;

const LIMIT: Tokenised = Tokenised::Refused { number: 1, place: 0 };

/// What a text comes to with so many numbers lent, and what they hold then. What every call promises is held to here: a refused one writes nothing, and
/// another leaves what stands behind its rows.
fn in_room(text: &[u8], room: usize) -> (Tokenised, Vec<u32>) {
    let (tokenised, rows) = lend_numbers(room, |rows| tokenise(text, rows));
    let kept = match tokenised {
        Tokenised::Written { tokens } => tokens * TOKEN_ROW,
        Tokenised::Refused { .. } => 0,
    };
    assert!(rows[kept..].iter().all(|&number| number == BEFORE), "{tokenised:?}: what is not a row");
    (tokenised, rows)
}

/// The rows of a text that is taken: where it has room for as many as bytes, with one number more, and in exactly as much as they need. With a number
/// less it is refused.
fn rows_of(text: &[u8]) -> Vec<u32> {
    let (tokenised, mut rows) = in_room(text, text.len() * TOKEN_ROW + 1);
    let Tokenised::Written { tokens } = tokenised else { panic!("{tokenised:?}") };
    rows.truncate(tokens * TOKEN_ROW);
    assert_eq!(in_room(text, rows.len()), (tokenised, rows.clone()));
    if tokens > 0 {
        assert_eq!(in_room(text, rows.len() - 1).0, LIMIT);
    }
    rows
}

/// Kinds and texts of the tokens; shape numbers are 0.
fn cut(text: &str) -> Vec<(u32, &str)> {
    let rows = rows_of(text.as_bytes());
    let one = |row: &[u32]| {
        assert_eq!(row[3], 0, "a shape number");
        (row[0], &text[row[1] as usize..(row[1] + row[2]) as usize])
    };
    rows.chunks(TOKEN_ROW).map(one).collect()
}

#[test]
fn small_texts() {
    assert_eq!(cut(""), []);
    assert_eq!(cut(r"\frac 1 2"), [(26, r"\frac"), (1, " "), (21, "1"), (1, " "), (21, "2")]);
    assert_eq!(cut(r"\begin{a*}\\\end{*}"), [(27, "a*"), (23, r"\\"), (28, "*")]);
    assert_eq!(cut(r"\begin{}\end"), [(31, r"\begin"), (3, "{"), (6, "}"), (32, r"\end")]);
    assert_eq!(cut("%c\r\n$$$"), [(2, "%c"), (0, "\r\n"), (22, "$$"), (22, "$")]);
    assert_eq!(cut(r"\ifstar\fi\left\("), [(35, r"\ifstar"), (37, r"\fi"), (38, r"\left"), (29, r"\(")]);
    assert_eq!(cut(r"\12\"), [(26, r"\1"), (21, "2"), (24, r"\")]);
}

#[test]
fn text_limit() {
    let word = vec![b'a'; BYTES];
    assert_eq!(rows_of(&word), [21, 0, BYTES as u32, 0]);
    assert_eq!(in_room(&vec![b'a'; BYTES + 1], 100).0, LIMIT);
}

#[test]
fn token_limit() {
    assert_eq!(rows_of(&vec![b','; TOKENS]).len(), TOKENS * TOKEN_ROW);
    let over = vec![b','; TOKENS + 1];
    assert_eq!(in_room(&over, over.len() * TOKEN_ROW).0, LIMIT);
    // As many tokens in as many bytes as a text may have.
    let long = [&vec![b','; TOKENS - 1][..], &vec![b'a'; BYTES - TOKENS + 1]].concat();
    assert_eq!(rows_of(&long).len(), TOKENS * TOKEN_ROW);
}

/// A byte over 127 is told before the size, however long the text is and however little room it has; the first one, wherever it stands.
#[test]
fn high_bytes() {
    for length in [1, 2, 15, 16, 17, 33, BYTES + 2] {
        for place in [0, length / 2, length - 1] {
            let mut text = vec![b'a'; length];
            text[place..].fill(0x80);
            let last = length - 1;
            text[last] = 0xFF;
            assert_eq!(in_room(&text, 3).0, Tokenised::Refused { number: 11, place });
        }
    }
    assert_eq!(rows_of(&[0x7F]), [21, 0, 1, 0]);
}

/// The answer of a run on a text's rows.
fn answer_to(text: &[u8], tokens: &[u32]) -> Answer {
    guarded(Tables { text, tokens, shapes: &[], states: &[] }, 400 * TREE_ROW, tokens.len()).0
}

/// Document 01's example of refusal 7, from its text.
#[test]
fn too_deep() {
    let text = [b'{'; 128];
    assert_eq!(answer_to(&text, &rows_of(&text)), refused(7, 127));
}

/// Bytes as they come: every ASCII byte lies in one token's source range, and a run on the rows is never refused 3.
#[test]
fn any_ascii_text() {
    const PARTS: [&str; 20] = [
        r"\begin{", r"\end{", r"\begin", "}", "*", "a", "ab1", " ", "\r\n", "%", "$", r"\", r"\iffalse", r"\fi", "_", "^", r"\left", "(", r"\right", "\0",
    ];
    let mut numbers = Numbers(103);
    for _ in 0..20_000 {
        let parts: Vec<&str> = (0..numbers.below(12)).map(|_| PARTS[numbers.below(20) as usize]).collect();
        let text = parts.concat();
        let tokens = rows_of(text.as_bytes());
        let mut source = String::new();
        for row in tokens.chunks(TOKEN_ROW) {
            let part = &text[row[1] as usize..(row[1] + row[2]) as usize];
            match row[0] {
                27 => source += &format!(r"\begin{{{part}}}"),
                28 => source += &format!(r"\end{{{part}}}"),
                _ => source += part,
            }
        }
        assert_eq!(source, text);
        let answer = answer_to(text.as_bytes(), &tokens);
        assert!(!matches!(answer, Answer::Refused { number: 1..=5, .. }), "{text:?}: {answer:?}");
    }
}
