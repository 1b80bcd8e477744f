//! Counts of crashes, in tables of every length up to [`LONGEST_TABLE`] and of some hundreds, with a t of any size,
//! through the call under test and through the reference.

use reference::crashes::{self, CrashCount};
use reference::LARGEST;

use crate::findings::{share, Findings};
use crate::random::Random;

/// The call under test: it takes t and a table of crash rounds, and gives the count. It refuses nothing, so a number is
/// always a difference.
pub type CountCrashes<'a> = &'a (dyn Fn(usize, &[u8]) -> Result<CrashCount, u8> + Sync);

/// Up to this length every one is met: it is more than twice that of the largest cluster, and above the bits of a
/// number.
pub const LONGEST_TABLE: usize = 2 * LARGEST + 16;

/// How many such lengths there are, 0 being one of them.
pub const LENGTHS: usize = LONGEST_TABLE + 1;

/// The part's key for the random numbers.
const CRASHES: u64 = 5;

/// A call: t and the crash rounds.
#[derive(Clone, Debug)]
struct Call {
    t: usize,
    crashes: Vec<u8>,
}

/// The reference's count of crashes.
pub fn by_reference(t: usize, crashes: &[u8]) -> Result<CrashCount, u8> {
    Ok(crashes::count_crashes(t, crashes))
}

/// Compares so many counts.
pub fn compare(seed: u64, count: u64, count_crashes: CountCrashes) -> Findings {
    share(count, KINDS.len(), |findings, case| {
        let (kind, call) = of_case(seed, case);
        let expected = by_reference(call.t, &call.crashes);
        findings.count(kind, expected.err());
        if call.crashes.len() <= LONGEST_TABLE {
            findings.lengths.insert(call.crashes.len());
        }
        let found = count_crashes(call.t, &call.crashes);
        findings.compare(case, expected == found, || {
            format!("call: {call:?}\nreference: {expected:?}\nunder test: {found:?}\n")
        });
    })
}

/// The call of a case and its kind. The lengths are walked: each comes up once with every kind, and then the next one.
/// The tables of the last kind are longer.
fn of_case(seed: u64, case: u64) -> (usize, Call) {
    let mut random = Random::of_case(seed, CRASHES, case);
    let place = case as usize;
    let (walk, kind) = (place / KINDS.len(), place % KINDS.len());
    let (_, (table, limit)) = KINDS[kind];
    let crashes = table(&mut random, walk % LENGTHS);
    let t = limit(&mut random, &crashes);
    (kind, Call { t, crashes })
}

/// How a table of a length is made.
type Table = fn(&mut Random, usize) -> Vec<u8>;

/// How t is chosen for a table.
type Limit = fn(&mut Random, &[u8]) -> usize;

/// The kinds of calls and their names: kinds of tables with any t, and then kinds of t with any table.
pub const KINDS: [(&str, (Table, Limit)); 18] = [
    ("no crash", (no_crash, any_limit)),
    ("one crash", (one_crash, any_limit)),
    ("crashes at the ends only", (ends_crash, any_limit)),
    ("crashes in a row", (row_crashes, any_limit)),
    ("few crash", (few_crash, any_limit)),
    ("half of them crash", (half_crash, any_limit)),
    ("most crash", (most_crash, any_limit)),
    ("all crash", (all_crash, any_limit)),
    ("crash rounds 0 and 1", (rounds_1, any_limit)),
    ("crash rounds 0 and 255", (rounds_255, any_limit)),
    ("crash rounds of any byte", (rounds_of_any_byte, any_limit)),
    ("t = 0", (any_table, zero)),
    ("t near the number of crashes", (any_table, near)),
    ("the same with a higher bit", (any_table, near_with_a_bit)),
    ("t up to above the length", (any_table, up_to_the_length)),
    ("t of any size", (any_table, any_size)),
    ("the largest t and those before it", (any_table, largest)),
    ("tables of some hundreds", (longer_table, near)),
];

/// How many of the kinds are kinds of tables; the others but the last are kinds of t.
const TABLES: usize = 11;

/// The place of the last kind.
const LONGER: usize = KINDS.len() - 1;

fn any_table(random: &mut Random, n: usize) -> Vec<u8> {
    let (_, (table, _)) = random.pick(&KINDS[..TABLES]);
    table(random, n)
}

/// A table of any kind that is 200 to 800 longer: a byte is too small for its places, and often for its count.
fn longer_table(random: &mut Random, n: usize) -> Vec<u8> {
    let longer = 200 * random.within(1..=4);
    any_table(random, n + longer)
}

/// Any t, most often one near the number of crashes, where the count turns.
fn any_limit(random: &mut Random, crashes: &[u8]) -> usize {
    if random.one_in(2) {
        return near(random, crashes);
    }
    let (_, (_, limit)) = random.pick(&KINDS[TABLES..LONGER]);
    limit(random, crashes)
}

/// A crash round that isn't 0: mostly one of a cluster, and sometimes 255 or any other one.
fn crash_round(random: &mut Random) -> u8 {
    let round = match random.below(8) {
        0 => 255,
        1 => random.within(1..=255),
        2 => 1,
        _ => random.within(1..=LARGEST),
    };
    round as u8
}

/// Of eight processes so many crash.
fn of_eight_crash(random: &mut Random, n: usize, crashing: usize) -> Vec<u8> {
    let mut crash = || match random.below(8) {
        place if place < crashing => crash_round(random),
        _ => 0,
    };
    (0..n).map(|_| crash()).collect()
}

fn no_crash(_: &mut Random, n: usize) -> Vec<u8> {
    vec![0; n]
}

fn one_crash(random: &mut Random, n: usize) -> Vec<u8> {
    let mut crashes = vec![0; n];
    if let Some(place) = random.place(n) {
        crashes[place] = crash_round(random);
    }
    crashes
}

/// The first or the last process crashes, or both of them.
fn ends_crash(random: &mut Random, n: usize) -> Vec<u8> {
    let mut crashes = vec![0; n];
    let (first, last) = random.pick(&[(true, false), (false, true), (true, true)]);
    if let (true, Some(crash)) = (first, crashes.first_mut()) {
        *crash = crash_round(random);
    }
    if let (true, Some(crash)) = (last, crashes.last_mut()) {
        *crash = crash_round(random);
    }
    crashes
}

/// The processes between two places crash.
fn row_crashes(random: &mut Random, n: usize) -> Vec<u8> {
    let mut crashes = vec![0; n];
    let (one, other) = (random.within(0..=n), random.within(0..=n));
    for crash in &mut crashes[one.min(other)..one.max(other)] {
        *crash = crash_round(random);
    }
    crashes
}

fn few_crash(random: &mut Random, n: usize) -> Vec<u8> {
    of_eight_crash(random, n, 1)
}

fn half_crash(random: &mut Random, n: usize) -> Vec<u8> {
    of_eight_crash(random, n, 4)
}

fn most_crash(random: &mut Random, n: usize) -> Vec<u8> {
    of_eight_crash(random, n, 7)
}

fn all_crash(random: &mut Random, n: usize) -> Vec<u8> {
    of_eight_crash(random, n, 8)
}

fn rounds_1(random: &mut Random, n: usize) -> Vec<u8> {
    (0..n).map(|_| random.pick(&[0, 1])).collect()
}

fn rounds_255(random: &mut Random, n: usize) -> Vec<u8> {
    (0..n).map(|_| random.pick(&[0, 255])).collect()
}

fn rounds_of_any_byte(random: &mut Random, n: usize) -> Vec<u8> {
    (0..n).map(|_| random.byte()).collect()
}

fn zero(_: &mut Random, _: &[u8]) -> usize {
    0
}

/// At most two away from the number of crashes.
fn near(random: &mut Random, crashes: &[u8]) -> usize {
    let f = crashes.iter().filter(|crash| **crash != 0).count();
    (f + random.below(5)).saturating_sub(2)
}

/// The same with a bit above the lowest byte, which shows whether all of t is looked at.
fn near_with_a_bit(random: &mut Random, crashes: &[u8]) -> usize {
    let bit = random.within(8..=usize::BITS as usize - 1);
    (1 << bit) + near(random, crashes)
}

fn up_to_the_length(random: &mut Random, crashes: &[u8]) -> usize {
    random.within(0..=crashes.len() + 2)
}

fn any_size(random: &mut Random, _: &[u8]) -> usize {
    random.any_size()
}

fn largest(random: &mut Random, _: &[u8]) -> usize {
    usize::MAX - random.below(3)
}

#[cfg(test)]
mod tests {
    use super::*;
    use std::collections::BTreeMap;

    /// The calls of one walk over all kinds and lengths.
    fn walk() -> Vec<(usize, Call)> {
        let count = (KINDS.len() * LENGTHS) as u64;
        (0..count).map(|case| of_case(1, case)).collect()
    }

    #[test]
    fn cases_walk_over_all_kinds_and_lengths() {
        let of_call = |(kind, call): (usize, Call)| (call.crashes.len(), kind);
        let (longer, met): (Vec<_>, Vec<_>) = walk()
            .into_iter()
            .map(of_call)
            .partition(|(_, kind)| *kind == LONGER);
        let all = (0..LENGTHS).flat_map(|n| (0..LONGER).map(move |kind| (n, kind)));
        assert!(met.into_iter().eq(all));
        assert_eq!(longer.len(), LENGTHS);
        let lengths = 200..=LONGEST_TABLE + 800;
        assert!(longer.iter().all(|(n, _)| lengths.contains(n)));
        assert!(longer.iter().any(|(n, _)| *n > 256));
    }

    /// Where the count of a call ends, in words.
    fn end(Call { t, crashes }: &Call) -> &'static str {
        let f = crashes.iter().filter(|crash| **crash != 0).count();
        match crashes.last() {
            None => "an empty table",
            Some(_) if f == 0 => "no crash",
            Some(_) if *t == usize::MAX => "the largest t",
            Some(_) if f < *t => "fewer crashes than t",
            Some(_) if f == *t => "t crashes",
            Some(_) if f > *t + 1 => "more crashes than t + 1",
            Some(0) => "t + 1 crashes, the last of them before the end",
            Some(_) => "t + 1 crashes, the last of them at the end",
        }
    }

    #[test]
    fn each_end_comes_up_often() {
        let mut met = BTreeMap::new();
        for (_, call) in walk() {
            *met.entry(end(&call)).or_insert(0) += 1;
        }
        assert_eq!(met.len(), 8, "{met:?}");
        assert!(met.values().all(|count| *count >= LONGER), "{met:?}");
    }
}
