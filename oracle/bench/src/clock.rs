//! Times that other work on the machine disturbs as little as can be.

use std::time::{Duration, Instant};

/// The least time of each rival: all are run once a round, so that a slow spell of the
/// machine meets them alike, and there are as many rounds as go into `span` for each.
pub(crate) fn least<R: Copy, const N: usize>(
    span: Duration,
    rivals: [R; N],
    mut once: impl FnMut(R) -> Duration,
) -> [Duration; N] {
    let begun = Instant::now();
    let mut least = [Duration::MAX; N];
    let mut rounds = 0;
    while rounds < FEWEST || begun.elapsed() < span * N as u32 {
        for (least, rival) in least.iter_mut().zip(rivals) {
            *least = once(rival).min(*least);
        }
        rounds += 1;
    }
    least
}

const FEWEST: usize = 3;

/// How long something takes; what it gives is freed afterwards.
pub(crate) fn time<T>(work: impl FnOnce() -> T) -> Duration {
    let begun = Instant::now();
    let made = work();
    let taken = begun.elapsed();
    drop(std::hint::black_box(made));
    taken
}
