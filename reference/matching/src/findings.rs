//! What a comparison found: counts, refusal numbers met, and the first differences in full.

use std::collections::BTreeSet;
use std::thread;

use reference::silent::Settings;
use reference::so_far::Equalities;
use reference::why::WORDS;

/// How many differences are kept in full.
const KEPT: usize = 3;

/// The largest refusal number.
const LAST_NUMBER: usize = 18;

/// The threads that share the cases.
const THREADS: u64 = 2;

/// How often each rule is named for a process, each at the place of its kind.
pub type Rules = [u64; WORDS.len()];

/// How often a kind of case was accepted and refused.
#[derive(Clone, Copy, Debug, Default)]
pub struct Kind {
    pub accepted: u64,
    pub refused: u64,
}

/// What a comparison found.
#[derive(Clone, Debug, Default)]
pub struct Findings {
    /// How many answers were compared.
    pub compared: u64,
    /// How many of them differ.
    pub differ: u64,
    /// How many finished runs were held against demand 3 and the rules of the first decider, of the crashes so far and
    /// of the silent processes.
    pub demands: u64,
    /// How many of them break one of these.
    pub broken: u64,
    /// How often they meet the number of crashes so far with equality.
    pub equalities: Equalities,
    /// How often their rows set the silent processes.
    pub settings: Settings,
    /// How often each rule is named for a process.
    pub rules: Rules,
    /// The first differences in full, each with the number of its case.
    pub differences: Vec<(u64, String)>,
    /// How often each refusal number was met.
    pub met: [u64; LAST_NUMBER + 1],
    /// How often each kind of case came up.
    pub kinds: Vec<Kind>,
    /// The sizes n and t of the accepted schedules and calls.
    pub sizes: BTreeSet<(usize, usize)>,
    /// The lengths of the tables in which crashes were counted.
    pub lengths: BTreeSet<usize>,
}

impl Findings {
    /// Nothing compared yet; the cases are of so many kinds.
    pub fn of_kinds(kinds: usize) -> Findings {
        Findings {
            kinds: vec![Kind::default(); kinds],
            ..Findings::default()
        }
    }

    /// Counts one case of a kind, by the number of its refusal if it has one.
    pub fn count(&mut self, kind: usize, refusal: Option<u8>) {
        match refusal {
            None => self.kinds[kind].accepted += 1,
            Some(number) => {
                self.kinds[kind].refused += 1;
                self.met[usize::from(number)] += 1;
            }
        }
    }

    /// Counts one comparison, and keeps its words if the answers differ.
    pub fn compare(&mut self, case: u64, equal: bool, words: impl FnOnce() -> String) {
        self.compared += 1;
        if !equal {
            self.differ += 1;
            self.keep(case, words);
        }
    }

    /// Counts one run held against demand 3 and the three rules, and keeps its words if it breaks one of these.
    pub fn demand(&mut self, case: u64, holds: bool, words: impl FnOnce() -> String) {
        self.demands += 1;
        if !holds {
            self.broken += 1;
            self.keep(case, words);
        }
    }

    fn keep(&mut self, case: u64, words: impl FnOnce() -> String) {
        if self.differences.len() < KEPT {
            self.differences.push((case, words()));
        }
    }

    /// Adds what another thread found on other cases of the same kinds.
    fn add(&mut self, other: Findings) {
        self.compared += other.compared;
        self.differ += other.differ;
        self.demands += other.demands;
        self.broken += other.broken;
        self.equalities += other.equalities;
        self.settings += other.settings;
        for (rule, more) in self.rules.iter_mut().zip(other.rules) {
            *rule += more;
        }
        for (met, more) in self.met.iter_mut().zip(other.met) {
            *met += more;
        }
        for (kind, more) in self.kinds.iter_mut().zip(other.kinds) {
            kind.accepted += more.accepted;
            kind.refused += more.refused;
        }
        self.sizes.extend(other.sizes);
        self.lengths.extend(other.lengths);
        self.differences.extend(other.differences);
        self.differences.sort_by_key(|(case, _)| *case);
        self.differences.truncate(KEPT);
    }

    /// The refusal numbers among these that were never met.
    pub fn never_met(&self, numbers: &[u8]) -> Vec<u8> {
        let never = |number: &u8| self.met[usize::from(*number)] == 0;
        numbers.iter().copied().filter(never).collect()
    }
}

/// Compares the cases 0 to count - 1, shared among threads; what is found doesn't depend on the sharing.
pub fn share(count: u64, kinds: usize, compare: impl Fn(&mut Findings, u64) + Sync) -> Findings {
    let of_thread = |first: u64| {
        let mut findings = Findings::of_kinds(kinds);
        for case in (first..count).step_by(THREADS as usize) {
            compare(&mut findings, case);
        }
        findings
    };
    let mut whole = Findings::of_kinds(kinds);
    thread::scope(|scope| {
        let work = &of_thread;
        let threads: Vec<_> = (0..THREADS)
            .map(|first| scope.spawn(move || work(first)))
            .collect();
        for thread in threads {
            whole.add(thread.join().expect("a comparison doesn't panic"));
        }
    });
    whole
}
