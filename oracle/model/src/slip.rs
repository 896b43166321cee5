//! The slips that look right, as switches.

/// A slip: one of document 01's 'Slips that look right', a wrong fifth number, or a wrong
/// entry in the stop table. A run with a slip is wrong on purpose: a list of cases is good if
/// it tells each of them from the rules.
#[derive(Debug, Clone, Copy, PartialEq, Eq)]
pub enum Slip {
    /// Last is saved before it is cleared, so it comes back after the arguments.
    SaveLastFirst,
    /// A wrap at a mark equal to the open node's first child stays outside the node.
    WrapOutside,
    /// `}` ends a script that is still empty.
    CurlyStopsScript,
    /// Range 0 counts as no shape.
    RangeZeroIsNone,
    /// Only `\iffalse` counts as an opener in a skipped body.
    OnlyIfFalseNests,
    /// The leaf of a held blank that is left has the place, not its own token.
    HeldHasPlace,
    /// The inner start of a wrap has the token of the first leaf that it wraps.
    WrapHasFirstLeaf,
    /// A finish has the token behind its place.
    FinishHasNext,
    /// The start of a skipped body has the token behind its opener.
    SkippedHasNext,
    /// The answer for this scope, by its number from Root, and this token kind.
    Stop { scope: u32, kind: u32 },
}

impl Slip {
    /// The slips that document 01 lists.
    pub const LISTED: [Slip; 5] = [
        Slip::SaveLastFirst,
        Slip::WrapOutside,
        Slip::CurlyStopsScript,
        Slip::RangeZeroIsNone,
        Slip::OnlyIfFalseNests,
    ];

    /// The slips in a row's fifth number. All else is right in such a run.
    pub const FIFTH_NUMBER: [Slip; 4] = [
        Slip::HeldHasPlace,
        Slip::WrapHasFirstLeaf,
        Slip::FinishHasNext,
        Slip::SkippedHasNext,
    ];

    /// All slips that have a name of their own.
    pub fn named() -> impl Iterator<Item = Slip> {
        Self::LISTED.into_iter().chain(Self::FIFTH_NUMBER)
    }
}
