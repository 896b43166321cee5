//! Tokenisers that are wrong on purpose are told from the model.

use cases::dice::Dice;
use hostile::{Around, Formula, Tokeniser};
use model::TokenSlip;
use sheet::{Refusal, Tokenised};

/// The first text by chance on which a tokeniser differs, cut down where it is not large.
fn first(tokenise: Tokeniser) -> Option<Formula> {
    let differs = |formula: &Formula| {
        let came = formula.difference(&mut Dice::new(0), Around::Canaries, tokenise);
        came.is_err()
    };
    let mut dice = Dice::new(3);
    let mut small = (0..20_000).map(|_| Formula::by_chance(&mut dice));
    let mut dice = Dice::new(4);
    let mut large = (0..100).map(|_| Formula::around_limits(&mut dice));
    match small.find(|formula| formula.text.len() < 1_000 && differs(formula)) {
        Some(formula) => Some(formula.smallest(&differs)),
        None => large.find(differs),
    }
}

fn right(text: &[u8], numbers: &mut [u32]) -> Tokenised {
    model::tokenise(text, numbers, None)
}

#[test]
fn the_model_agrees_with_itself() {
    assert_eq!(first(&right), None);
}

#[test]
fn the_port_cuts_as_the_model() {
    assert_eq!(first(&port::tokenise), None);
}

#[test]
fn every_slip_is_found() {
    let slips = TokenSlip::IN_ASCII.into_iter();
    for slip in slips.chain(TokenSlip::IN_OTHER_BYTES) {
        let slipped = |text: &[u8], numbers: &mut [u32]| model::tokenise(text, numbers, Some(slip));
        let found = first(&slipped).unwrap_or_else(|| panic!("{slip:?} is not found"));
        let large = [
            TokenSlip::OneTokenMore,
            TokenSlip::OneByteMore,
            TokenSlip::SizeFirst,
        ];
        let length = found.text.len();
        assert!(large.contains(&slip) || length <= 10, "{slip:?}: {found:?}");
    }
}

#[test]
fn a_place_beside_the_right_one_is_found() {
    for number in [1, 11] {
        let beside = |text: &[u8], numbers: &mut [u32]| {
            right(text, numbers).map_err(|refusal| Refusal {
                place: refusal.place + usize::from(refusal.number == number),
                ..refusal
            })
        };
        assert!(first(&beside).is_some(), "refusal {number}");
    }
}

#[test]
fn a_number_behind_the_rows_is_found() {
    let writes = |text: &[u8], numbers: &mut [u32]| {
        let came = right(text, numbers);
        if let Some(next) = came.ok().and_then(|rows| numbers.get_mut(4 * rows)) {
            *next ^= 1;
        }
        came
    };
    let found = first(&writes).expect("a difference");
    assert_eq!((found.text.len(), found.lent), (0, 1));
}

#[test]
fn a_refusal_that_writes_is_found() {
    let writes = |text: &[u8], numbers: &mut [u32]| {
        let came = right(text, numbers);
        if came.is_err() {
            numbers.fill(0);
        }
        came
    };
    let found = first(&writes).expect("a difference");
    assert_eq!((found.text.len(), found.lent), (1, 1));
}
