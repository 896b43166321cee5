//! The corner cases of document 02's request #103, and what the tokeniser refuses.

use model::{tokenise, TokenSlip};
use sheet::{Refusal, Token, Tokenised};

const LINE_BREAK: u32 = 0;
const BLANK: u32 = 1;
const COMMENT: u32 = 2;
const LEFT_CURLY: u32 = 3;
const LEFT_BRACKET: u32 = 4;
const RIGHT_CURLY: u32 = 6;
const RIGHT_BRACKET: u32 = 7;
const ASTERISK: u32 = 18;
const WORD: u32 = 21;
const DOLLAR: u32 = 22;
const NEW_LINE: u32 = 23;
const ERROR: u32 = 24;
const GENERIC: u32 = 26;
const BEGIN: u32 = 27;
const END: u32 = 28;
const BEGIN_MATH: u32 = 29;
const END_MATH: u32 = 30;
const ERROR_BEGIN: u32 = 31;
const ERROR_END: u32 = 32;
const IF: u32 = 35;

/// What lent numbers hold before.
const MARK: u32 = 77;

/// The tokens of a text, as kinds and texts.
fn tokens(text: &str) -> Vec<(u32, &str)> {
    let mut numbers = vec![MARK; Token::WIDTH * text.len()];
    let count = tokenise(text.as_bytes(), &mut numbers, None).expect("no refusal");
    let rows = numbers.chunks_exact(Token::WIDTH).take(count);
    rows.map(Token::of)
        .map(|token| {
            assert_eq!(token.shape, 0);
            let start = token.start as usize;
            (token.kind, &text[start..start + token.len as usize])
        })
        .collect()
}

#[test]
fn commands() {
    let generic = |text| (GENERIC, text);
    assert_eq!(tokens(r"\"), [(ERROR, r"\")]);
    assert_eq!(tokens(r"\\\"), [(NEW_LINE, r"\\"), (ERROR, r"\")]);
    assert_eq!(tokens(r"\\begin"), [(NEW_LINE, r"\\"), (WORD, "begin")]);
    assert_eq!(tokens("\\\r\n"), [generic("\\\r"), (LINE_BREAK, "\n")]);
    assert_eq!(tokens(r"\%\ "), [generic(r"\%"), generic(r"\ ")]);
    assert_eq!(tokens(r"\12"), [generic(r"\1"), (WORD, "2")]);
    assert_eq!(tokens(r"\f*"), [generic(r"\f"), (ASTERISK, "*")]);
    assert_eq!(tokens(r"\@ifstar"), [generic(r"\@"), (WORD, "ifstar")]);
    assert_eq!(tokens(r"\ifstar"), [(IF, r"\ifstar")]);
    assert_eq!(
        tokens(r"\iffalsex\IF"),
        [generic(r"\iffalsex"), generic(r"\IF")]
    );
    assert_eq!(
        tokens(r"\beginx\Begin"),
        [generic(r"\beginx"), generic(r"\Begin")]
    );
    let math = [
        (BEGIN_MATH, r"\("),
        (BEGIN_MATH, r"\["),
        (END_MATH, r"\)"),
        (END_MATH, r"\]"),
    ];
    assert_eq!(tokens(r"\(\[\)\]"), math);
}

#[test]
fn environments() {
    assert_eq!(tokens(r"\begin{a*}b"), [(BEGIN, "a*"), (WORD, "b")]);
    assert_eq!(
        tokens(r"\begin{*}\end{*a*b}"),
        [(BEGIN, "*"), (END, "*a*b")]
    );
    let error = (ERROR_BEGIN, r"\begin");
    let [open, close] = [(LEFT_CURLY, "{"), (RIGHT_CURLY, "}")];
    let [a, blank] = [(WORD, "a"), (BLANK, " ")];
    assert_eq!(tokens(r"\begin{}"), [error, open, close]);
    assert_eq!(
        tokens(r"\begin{a b}"),
        [error, open, a, blank, (WORD, "b"), close]
    );
    assert_eq!(tokens(r"\begin {a}"), [error, blank, open, a, close]);
    assert_eq!(tokens(r"\begin{a1}"), [error, open, (WORD, "a1"), close]);
    assert_eq!(tokens(r"\begin{a"), [error, open, a]);
    let brackets = [error, (LEFT_BRACKET, "["), a, (RIGHT_BRACKET, "]")];
    assert_eq!(tokens(r"\begin[a]"), brackets);
    assert_eq!(tokens(r"\end"), [(ERROR_END, r"\end")]);
}

#[test]
fn longest_matches() {
    assert_eq!(tokens("$$$"), [(DOLLAR, "$$"), (DOLLAR, "$")]);
    assert_eq!(tokens("%c"), [(COMMENT, "%c")]);
    assert_eq!(
        tokens("%c\r\n\n"),
        [(COMMENT, "%c"), (LINE_BREAK, "\r\n\n")]
    );
    assert_eq!(tokens("\t\x0b\x0c "), [(BLANK, "\t\x0b\x0c ")]);
    let control = "\x00\x08\x0e\x1f\x7f09";
    assert_eq!(tokens(control), [(WORD, control)]);
}

/// What comes of a text with so many numbers lent, and how many of them were written.
fn lent(text: &[u8], numbers: usize) -> (Tokenised, usize) {
    let mut numbers = vec![MARK; numbers];
    let came = tokenise(text, &mut numbers, None);
    let kept = numbers.iter().rev().take_while(|&&number| number == MARK);
    (came, numbers.len() - kept.count())
}

fn refused(number: u32, place: usize) -> (Tokenised, usize) {
    (Err(Refusal { number, place }), 0)
}

#[test]
fn refusals() {
    assert_eq!(lent(b"", 0), (Ok(0), 0));
    assert_eq!(lent(b"a b", 13), (Ok(3), 12));
    assert_eq!(lent(b"a b", 11), refused(1, 0));
    assert_eq!(lent(b"ab\xc8\xff", 0), refused(11, 2));
    let mut long = vec![b'a'; 65_535];
    assert_eq!(lent(&long, 4), (Ok(1), 4));
    long.push(b'a');
    assert_eq!(lent(&long, 4), refused(1, 0));
    long.push(0x80);
    assert_eq!(lent(&long, 4), refused(11, 65_536));
    assert_eq!(lent(&[b','; 16_384], 65_536).0, Ok(16_384));
    assert_eq!(lent(&[b','; 16_385], 70_000), refused(1, 0));
}

/// A text on which a slip shows, and how many numbers are lent.
fn shows(slip: TokenSlip) -> (Vec<u8>, usize) {
    let (text, numbers): (&[u8], usize) = match slip {
        TokenSlip::ShortWord => (b"ab", 8),
        TokenSlip::OneDollar => (b"$$", 8),
        TokenSlip::OneBreak => (b"\n\n", 8),
        TokenSlip::VerticalTabInWord => (b"\x0b", 4),
        TokenSlip::CommentTakesBreak => (b"%\n", 8),
        TokenSlip::BlankIsNoName | TokenSlip::BlankNameIsWord => (b"\\ ", 8),
        TokenSlip::IfStarIsGeneric => (br"\ifstar", 4),
        TokenSlip::SpellingInFront => (br"\iffalsex", 8),
        TokenSlip::EmptyName => (br"\begin{}", 12),
        TokenSlip::OneStar => (br"\begin{*a}", 20),
        TokenSlip::BlankBeforeBrace => (br"\begin {a}", 20),
        TokenSlip::TextHasBraces => (br"\begin{a}", 4),
        TokenSlip::RowShort => (b"a", 0),
        TokenSlip::WritesFirst => (b"a,", 7),
        TokenSlip::OneTokenMore => (&[b','; 16_385], 4 * 16_385),
        TokenSlip::OneByteMore => (&[b'a'; 65_536], 4),
        TokenSlip::SecondByte => (b"\x80\x80", 0),
        TokenSlip::SizeFirst => (&[0x80; 65_536], 0),
    };
    (text.to_vec(), numbers)
}

#[test]
fn every_slip_shows() {
    let slips = TokenSlip::IN_ASCII.into_iter();
    for slip in slips.chain(TokenSlip::IN_OTHER_BYTES) {
        let (text, lent) = shows(slip);
        let with = |slip| {
            let mut numbers = vec![MARK; lent];
            (tokenise(&text, &mut numbers, slip), numbers)
        };
        assert_ne!(with(None), with(Some(slip)), "{slip:?}");
    }
}
