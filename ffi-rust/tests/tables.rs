//! Any tables through the library: each refusal of document 01 with its number and place, at its limit and one over, and nothing written outside.
mod guarded;
#[path = "guarded/numbers.rs"]
mod numbers;

use cartglaze::{Answer, Tables, TREE_ROW};
use guarded::{guarded, refused};
use numbers::Numbers;

const NONE: Tables = Tables { text: b"", tokens: &[], shapes: &[], states: &[] };

const WORD: u32 = 21;
const GENERIC: u32 = 26;

/// Numbers at which sums, tables and types end.
const LARGE: [u32; 8] = [256, 65_535, 65_536, 1 << 30, (1 << 31) - 1, 1 << 31, u32::MAX - 1, u32::MAX];

/// The answer alone, with room for whatever these tables can give.
fn answer(tables: Tables) -> Answer {
    guarded(tables, TREE_ROW * (64 + 8 * tables.tokens.len()), tables.tokens.len() / 4 * 3).0
}

/// Whether a run is accepted.
fn is_accepted(answer: Answer) -> bool {
    matches!(answer, Answer::Accepted { .. })
}

fn at_limit_and_over(accepted: Tables, over: Tables) {
    assert!(is_accepted(answer(accepted)), "at the limit");
    assert_eq!(answer(over), refused(1, 0), "one over the limit");
}

#[test]
fn text_limit() {
    let text = vec![b'a'; 65_536];
    at_limit_and_over(Tables { text: &text[..65_535], ..NONE }, Tables { text: &text, ..NONE });
}

#[test]
fn token_limit() {
    let tokens = [1, 0, 1, 0].repeat(16_385);
    at_limit_and_over(Tables { text: b" ", tokens: &tokens[..16_384 * 4], ..NONE }, Tables { text: b" ", tokens: &tokens, ..NONE });
}

#[test]
fn shape_limit() {
    let shapes = [1, 1, 2].repeat(4_097);
    at_limit_and_over(Tables { shapes: &shapes[..4_096 * 3], ..NONE }, Tables { shapes: &shapes, ..NONE });
}

#[test]
fn state_limit() {
    let states = [4_096, 1, 0].repeat(4_097);
    at_limit_and_over(Tables { states: &states[..4_096 * 3], ..NONE }, Tables { states: &states, ..NONE });
}

#[test]
fn parts_of_rows() {
    let (tokens, shapes, states) = ([1, 0, 1, 0, 1, 0, 1, 0], [1, 1, 2, 1, 1, 2], [0; 6]);
    for length in 0..=8 {
        let expected = length % 4 == 0;
        let tables = Tables { text: b" ", tokens: &tokens[..length], ..NONE };
        assert_eq!(is_accepted(answer(tables)), expected, "{length} numbers of tokens");
        assert!(expected || answer(tables) == refused(1, 0));
    }
    for length in 0..=6 {
        for tables in [Tables { shapes: &shapes[..length], ..NONE }, Tables { states: &states[..length], ..NONE }] {
            let expected = if length % 3 == 0 { Answer::Accepted { rows: 2, dropped: 0 } } else { refused(1, 0) };
            assert_eq!(answer(tables), expected, "{tables:?}");
        }
    }
}

#[test]
fn dropped_buffer() {
    let tokens = [1, 0, 1, 0].repeat(5);
    for count in 0..=5 {
        let tables = Tables { text: b" ", tokens: &tokens[..count * 4], ..NONE };
        assert!(is_accepted(guarded(tables, 64, count * 3).0), "{count} tokens");
        for short in 0..count * 3 {
            assert_eq!(guarded(tables, 64, short).0, refused(2, 0), "{count} tokens, {short} numbers");
        }
    }
}

/// The answer for two good rows with this one between them.
fn between(text: &[u8], row: [u32; 4], shapes: &[u32]) -> Answer {
    let good = [1, 0, 1, 0];
    answer(Tables { text, tokens: &[good, row, good].concat(), shapes, states: &[] })
}

#[test]
fn kinds() {
    for kind in 0..40 {
        assert!(is_accepted(between(b"a", [kind, 0, 1, 0], &[])), "kind {kind}");
    }
    let wrapped = (0..40).flat_map(|kind| [256 + kind, 65_536 + kind, (1 << 31) + kind]);
    for kind in (40..=1_024).chain(wrapped).chain(LARGE) {
        assert_eq!(between(b"a", [kind, 0, 1, 0], &[]), refused(3, 1), "kind {kind}");
    }
}

#[test]
fn ranges() {
    let ends = [0, 1, 2, 3, 4].into_iter().chain(LARGE);
    for (start, length) in ends.clone().flat_map(|start| ends.clone().map(move |length| (start, length))) {
        let inside = u64::from(start) + u64::from(length) <= 3;
        let result = between(b"abc", [GENERIC, start, length, 0], &[]);
        assert_eq!(is_accepted(result), inside, "{start} + {length}: {result:?}");
        assert!(inside || result == refused(3, 1), "{start} + {length}: {result:?}");
    }
}

#[test]
fn shape_numbers() {
    for shape in (0..=4).chain(LARGE) {
        let expected = shape <= 2;
        let result = between(b"a", [GENERIC, 0, 1, shape], &[1, 1, 0, 1, 2, 0]);
        assert_eq!(is_accepted(result), expected, "shape {shape}: {result:?}");
        assert!(expected || result == refused(3, 1), "shape {shape}: {result:?}");
    }
}

/// Whether these bytes are a Word is what Rust's own UTF-8 says, except that no Word is empty.
fn word(bytes: &[u8]) {
    let text = [b" ", bytes].concat();
    let expected = !bytes.is_empty() && std::str::from_utf8(bytes).is_ok();
    let result = between(&text, [WORD, 1, bytes.len() as u32, 0], &[]);
    assert_eq!(is_accepted(result), expected, "{bytes:x?}: {result:?}");
    assert!(expected || result == refused(3, 1), "{bytes:x?}: {result:?}");
}

#[test]
fn words() {
    word(b"");
    for first in 0..=255 {
        word(&[first]);
        for second in 0..=255 {
            word(&[first, second]);
        }
    }
    // Both sides of every bound that RFC 3629 names.
    let bounds = [0x00, 0x7F, 0x80, 0x8F, 0x90, 0x9F, 0xA0, 0xBF, 0xC0, 0xFF];
    for first in 0xDF..=0xF8 {
        for (second, third) in bounds.into_iter().flat_map(|a| bounds.map(|b| (a, b))) {
            word(&[first, second, third]);
            for fourth in bounds {
                word(&[first, second, third, fourth]);
            }
        }
    }
}

#[test]
fn only_words_are_utf8() {
    for kind in (0..40).filter(|&kind| kind != WORD) {
        assert!(is_accepted(between(b"\xFF", [kind, 0, 1, 0], &[])), "kind {kind}");
        assert!(is_accepted(between(b"a", [kind, 1, 0, 0], &[])), "kind {kind}, empty");
    }
}

/// Document 01's list of shapes: class 1 or 2, and what each form asks.
fn is_shape([class, form, value]: [u32; 3], states: u32) -> bool {
    (class == 1 || class == 2)
        && match form {
            0 | 3 => value == 0,
            1 | 2 => value <= 255,
            4 => 1 <= value && value <= states,
            5 | 6 => value == 0 && class == 1,
            _ => false,
        }
}

#[test]
fn shapes() {
    for states in 0..=3 {
        let values = [0, 1, 2, 3, 4, 254, 255].into_iter().chain(LARGE);
        for (class, form) in (0..=4).chain(LARGE).flat_map(|class| (0..=9).chain(LARGE).map(move |form| (class, form))) {
            for value in values.clone() {
                let row = [class, form, value];
                let shapes = [[1, 0, 0], row, [2, 0, 0]].concat();
                let result = answer(Tables { shapes: &shapes, states: &vec![0; states * 3], ..NONE });
                let expected = is_shape(row, states as u32);
                assert_eq!(result, if expected { Answer::Accepted { rows: 2, dropped: 0 } } else { refused(4, 1) }, "{row:?}, {states} states");
            }
        }
    }
}

#[test]
fn next_states() {
    for (cell, next) in (0..9).flat_map(|cell| (0..=5).chain(LARGE).map(move |next| (cell, next))) {
        let mut states = [3; 9];
        states[cell] = next;
        let result = answer(Tables { shapes: &[1, 0, 0, 1, 4, 3], states: &states, ..NONE });
        // States are counted on after the two shapes.
        let expected = if next <= 3 { Answer::Accepted { rows: 2, dropped: 0 } } else { refused(4, 2 + cell / 3) };
        assert_eq!(result, expected, "cell {cell}, next {next}");
    }
}

#[test]
fn order_of_refusals() {
    let bad = Tables { text: b"a", tokens: &[1, 0, 1, 0, 40, 0, 1, 0, WORD, 0, 0, 0], shapes: &[1, 0, 0, 3, 0, 0], states: &[9, 0, 0] };
    let good_tokens = [1, 0, 1, 0];
    assert_eq!(guarded(Tables { states: &[9, 0], ..bad }, 0, 0).0, refused(1, 0));
    assert_eq!(guarded(bad, 0, 8).0, refused(2, 0));
    assert_eq!(guarded(bad, 0, 9).0, refused(3, 1));
    assert_eq!(guarded(Tables { tokens: &good_tokens, ..bad }, 0, 3).0, refused(4, 1));
    assert_eq!(guarded(Tables { tokens: &good_tokens, shapes: &[1, 0, 0], ..bad }, 0, 3).0, refused(4, 1));
    assert_eq!(guarded(Tables { tokens: &good_tokens, shapes: &[], states: &[1, 0, 0], ..bad }, 0, 3).0, refused(8, 0));
}

/// Nearly always below the bound.
fn mostly_below(numbers: &mut Numbers, bound: u32) -> u32 {
    if numbers.below(500) == 0 {
        bound + numbers.below(u32::MAX - bound)
    } else {
        numbers.below(bound)
    }
}

/// Any tables come to an answer of document 01, in buffers of any length; each kind of refusal comes up among them, and so do accepted runs.
#[test]
fn any_tables() {
    let mut numbers = Numbers(0x9E37_79B9_7F4A_7C15);
    let text = b"ab \\frac{x}_y";
    let mut seen = [0; 9];
    for _ in 0..60_000 {
        let (tokens, shapes, states) = (numbers.below(160), numbers.below(4), numbers.below(4));
        let braces = numbers.below(8) == 0;
        let mut token = || {
            let kind = if braces { 3 } else { mostly_below(&mut numbers, 40) };
            [kind, numbers.below(12), 1, mostly_below(&mut numbers, shapes + 1)]
        };
        let tokens: Vec<u32> = (0..tokens).flat_map(|_| token()).collect();
        let shapes: Vec<u32> = (0..shapes)
            .flat_map(|_| {
                let form = [0, 1, 2, 3, 5, 6][numbers.below(6) as usize];
                [1 + mostly_below(&mut numbers, if form > 3 { 1 } else { 2 }), form, if form == 1 || form == 2 { numbers.below(4) } else { 0 }]
            })
            .collect();
        let states: Vec<u32> = (0..states * 3).map(|_| mostly_below(&mut numbers, states + 1)).collect();
        let room = if numbers.below(4) == 0 { numbers.below(2_000) } else { 20_000 } as usize;
        let dropped = (tokens.len() / 4 * 3 + numbers.below(200) as usize).saturating_sub(4);
        let whole = if numbers.below(100) == 0 { tokens.len().saturating_sub(1) } else { tokens.len() };
        let tables = Tables { text, tokens: &tokens[..whole], shapes: &shapes, states: &states };
        match guarded(tables, room, dropped).0 {
            Answer::Accepted { .. } => seen[0] += 1,
            Answer::Refused { number, .. } => seen[number] += 1,
        }
    }
    println!("accepted and refused 1 to 8: {seen:?}");
    assert!(seen.iter().all(|&count| count > 0), "{seen:?}");
}
