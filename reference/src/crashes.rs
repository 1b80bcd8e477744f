//! The count of crashes, which ends sooner where there are too many (document 02, K4).

/// What a count of crashes answers.
#[derive(Clone, Copy, Debug, PartialEq, Eq)]
pub struct CrashCount {
    /// How many of the processes that it looked at crash.
    pub count: usize,
    /// The number of the last process that it looked at; 0 if there is none to look at.
    pub looked_at: usize,
}

/// Counts the crashes in a table of n crash rounds, the one of process i at place i - 1. Document 02, K4: "it shall end
/// at the crash that makes t + 1 of them, and answer, beside the count, the number of the last process it looked at:
/// that crash's process, or n where there is no such crash."
///
/// t and n may be anything: there is no question to answer first. A crash round that isn't 0 is a crash.
pub fn count_crashes(t: usize, crashes: &[u8]) -> CrashCount {
    let n = crashes.len();
    let crashing = || (1..=n).filter(|i| crashes[i - 1] != 0);
    // After t others of those that crash comes the one that makes t + 1 of them, if there is such a one.
    match crashing().nth(t) {
        Some(process) => CrashCount {
            count: t + 1,
            looked_at: process,
        },
        None => CrashCount {
            count: crashing().count(),
            looked_at: n,
        },
    }
}
