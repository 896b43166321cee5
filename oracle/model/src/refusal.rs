//! Refusals.

use sheet::Refusal;

pub(crate) type Step<T = ()> = Result<T, Refusal>;

pub(crate) fn refuse<T>(number: u32, place: usize) -> Step<T> {
    Err(Refusal { number, place })
}
