//! The crashes in a table of crash rounds.

use crate::bytes;
use crate::refusal::unknown;

/// What a count of crashes found.
#[derive(Clone, Copy, Debug, PartialEq, Eq, Hash)]
pub struct CrashCount {
    /// How many of the processes looked at crash: t + 1 if more than t of the table crash, and else as many as crash.
    pub count: usize,
    /// The number of the last process looked at: the one whose crash makes t + 1 of them; where there is no such crash, that of the last
    /// process of the table, and 0 if the table is empty.
    pub looked_at: usize,
}

impl CrashCount {
    /// The two numbers in the order in which the library writes them.
    pub(crate) fn of_table([count, looked_at]: [usize; 2]) -> CrashCount {
        CrashCount { count, looked_at }
    }
}

/// Counts the processes that crash in a table of crash rounds, 0 for never, process i's at place i - 1, and ends at the crash that makes
/// t + 1 of them. If the count is above t, [`simulate`](crate::simulate) refuses such a table, with
/// [`Refusal::Crashes`](crate::Refusal::Crashes) where nothing before it is wrong.
///
/// Nothing is refused: t and the table may be anything.
pub fn count_crashes(t: usize, crashes: &[u8]) -> CrashCount {
    bytes::count_crashes(t, crashes).unwrap_or_else(|number| unknown("refusal", number))
}
