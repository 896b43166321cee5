//! Runs whose lent buffers lie between numbers of their own, so that a write outside is seen.
use cartglaze::{run, Answer, Tables, TREE_ROW};

/// What the buffers hold before a run, so that what is not written can be told.
pub const BEFORE: u32 = 0xBEF0_0BEF;

/// What stands on both sides of a buffer, and how many of it.
const OUTSIDE: u32 = 0x0075_1DE0;
const WIDTH: usize = 64;

/// Lends a buffer of `length` elements that lies between others, and gives what it holds afterwards.
pub fn lend<T: Copy + PartialEq, R>(length: usize, before: T, outside: T, use_it: impl FnOnce(&mut [T]) -> R) -> (R, Vec<T>) {
    let mut all = vec![outside; WIDTH + length + WIDTH];
    let lent = &mut all[WIDTH..WIDTH + length];
    lent.fill(before);
    let result = use_it(lent);
    let after = all[WIDTH..WIDTH + length].to_vec();
    assert!(all[..WIDTH].iter().chain(&all[WIDTH + length..]).all(|&x| x == outside), "a write outside the buffer");
    (result, after)
}

/// A buffer of numbers.
pub fn lend_numbers<R>(length: usize, use_it: impl FnOnce(&mut [u32]) -> R) -> (R, Vec<u32>) {
    lend(length, BEFORE, OUTSIDE, use_it)
}

/// The answer of a run and both buffers after it. What every run promises is held to here: 1 to 4 write nothing, 5 to 8 leave zeros, and an accepted one
/// leaves what stands behind its rows.
pub fn guarded(tables: Tables, room: usize, dropped_room: usize) -> (Answer, Vec<u32>, Vec<u32>) {
    let ((answer, dropped), tree) = lend_numbers(room, |tree| lend_numbers(dropped_room, |dropped| run(tables, tree, dropped)));
    let (kept_tree, kept_dropped, kept) = match answer {
        Answer::Accepted { rows, dropped } => (rows * TREE_ROW, dropped * 3, BEFORE),
        Answer::Refused { number: 1..=4, .. } => (0, 0, BEFORE),
        Answer::Refused { number: 5..=8, .. } => (0, 0, 0),
        Answer::Refused { number, .. } => panic!("no run is refused with {number}"),
    };
    assert!(tree[kept_tree..].iter().chain(&dropped[kept_dropped..]).all(|&x| x == kept), "{answer:?}: what is not a row");
    (answer, tree, dropped)
}

/// A refusal.
pub fn refused(number: usize, place: usize) -> Answer {
    Answer::Refused { number, place }
}
