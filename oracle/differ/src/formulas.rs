//! Which formulas are taken.

use answers::Spec;
use cases::dice::Dice;
use cases::{all_sequences, around_limits, by_chance, usual};

/// Sequences of more parts than this are too many.
const MOST_PARTS: u32 = 4;

/// Formulas without end, of which so many are to be taken: those around the limits, all
/// sequences of up to as many parts, four at most, as leave a quarter of the whole, and then
/// formulas by chance.
pub fn formulas(count: usize, seed: u64) -> impl Iterator<Item = (String, Spec)> {
    let parts = |length: u32| all_sequences(length).size_hint().0;
    let mut lengths = 0;
    let mut taken = 0;
    while lengths <= MOST_PARTS && 4 * (taken + parts(lengths)) <= 3 * count {
        taken += parts(lengths);
        lengths += 1;
    }
    let sequences = (0..lengths).flat_map(all_sequences);
    let mut dice = Dice::new(seed);
    let chance = std::iter::from_fn(move || {
        let most = most_parts(&mut dice);
        Some(by_chance(&mut dice, most))
    });
    around_limits()
        .into_iter()
        .chain(sequences.map(|text| (text, usual())))
        .chain(chance)
}

/// Mostly short ones; one in 20,000 is about as long as a text may be.
fn most_parts(dice: &mut Dice) -> usize {
    match dice.below(20_000) {
        0 => 12_000,
        1..=1_000 => 300,
        _ => 40,
    }
}
