//! The comparison tells each slip of a tokeniser from the lexer, or from what is asked of lent
//! numbers.

use std::collections::HashSet;

use cases::smallest;
use lex::{all_short, around_limits, by_chance, difference, Held, Known, Tally, SHAPES, SHORT};
use model::TokenSlip;
use sheet::Refusal;

/// How what is held differs on a text.
fn says(text: &str, held: Held) -> Option<String> {
    let known = Known::new(SHAPES.parse().expect("shapes"));
    difference(text, &known, held).expect("no panic").err()
}

/// The first of some texts on which what is held differs.
fn first(held: Held) -> Option<String> {
    let by_chance = by_chance(1).take(20_000).map(|(text, _)| text);
    let mut texts = by_chance.chain(around_limits());
    texts.find(|text| says(text, held).is_some())
}

#[test]
fn every_slip_is_found_and_cut_down() {
    for slip in TokenSlip::IN_ASCII {
        let slipped = |text: &[u8], numbers: &mut [u32]| model::tokenise(text, numbers, Some(slip));
        let held = Held {
            tokenise: &slipped,
            ..Held::PORT
        };
        let text = first(held).unwrap_or_else(|| panic!("{slip:?} is not found"));
        // What shows at the limits alone has no small text.
        if !matches!(slip, TokenSlip::OneTokenMore | TokenSlip::OneByteMore) {
            let spec = SHAPES.parse().expect("shapes");
            let (text, _) = smallest(&text, &spec, |text, _| says(text, held).is_some());
            assert!(text.len() <= 10, "{slip:?}: {text:?}");
        }
    }
}

#[test]
fn the_model_differs_as_listed() {
    let model = |text: &[u8], numbers: &mut [u32]| model::tokenise(text, numbers, None);
    let held = Held {
        tokenise: &model,
        ..Held::PORT
    };
    assert_eq!(first(held), None);
}

#[test]
fn a_refusal_of_what_fits_is_found() {
    let timid = |text: &[u8], numbers: &mut [u32]| match text.len() {
        65_535 => model::tokenise(&[b'a'; 65_536], numbers, None),
        _ => model::tokenise(text, numbers, None),
    };
    let held = Held {
        tokenise: &timid,
        ..Held::PORT
    };
    let mut limits = around_limits();
    let said = limits.find_map(|text| says(&text, held));
    assert!(said
        .expect("a difference")
        .starts_with("65535 bytes with room enough"));
}

#[test]
fn rows_that_no_tokeniser_gives_are_found() {
    for row in [
        [40, 0, 1, 0],
        [21, 1, 0, 0],
        [21, 0, 9, 0],
        [21, 0, 1, 1],
        [27, 0, 1, 0],
    ] {
        let wild = |_: &[u8], numbers: &mut [u32]| {
            let refusal = Err(Refusal {
                number: 1,
                place: 0,
            });
            let Some(first) = numbers.get_mut(..4) else {
                return refusal;
            };
            first.copy_from_slice(&row);
            Ok(1)
        };
        let held = Held {
            tokenise: &wild,
            ..Held::PORT
        };
        assert!(says("a", held).is_some(), "{row:?}");
    }
}

#[test]
fn the_port_differs_as_listed() {
    let mut tally = Tally::default();
    let texts = by_chance(2).take(20_000);
    for (text, nameless) in texts {
        tally.text(&text, nameless, Held::PORT);
    }
    assert_eq!((tally.texts, tally.differ), (20_000, 0));
}

#[test]
fn all_short_texts_are_taken_once() {
    let texts: HashSet<String> = all_short().collect();
    assert_eq!(texts.len(), SHORT);
    let short = |text: &String| text.len() <= 3 && text.is_ascii();
    assert!(texts.iter().all(short));
}

#[test]
fn the_same_seed_gives_the_same_texts() {
    let some = |seed| -> Vec<(String, bool)> { by_chance(seed).take(1_000).collect() };
    assert_eq!(some(7), some(7));
    assert_ne!(some(7), some(8));
}
