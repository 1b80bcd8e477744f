//! Accepted schedules of all sizes, in families by name.

use std::ops::RangeInclusive;

use reference::questions::{MIN_CRASHES, SIZES};
use reference::schedule::{bit, everyone, Schedule};
use reference::{Set, LARGEST};

use crate::random::Random;

/// How a schedule of a family is made for n and t.
type Make = fn(&mut Random, usize, usize) -> Schedule;

/// The families and their names.
pub const FAMILIES: [(&str, Make); 17] = [
    ("no crash", no_crash),
    ("crashes early", crashes_early),
    ("crashes late", crashes_late),
    ("one crash a round", one_a_round),
    ("chain that passes a single 0 on", chain_of_0),
    ("chain that reaches few", chain_that_reaches_few),
    ("f = t - 1", all_but_one_crash),
    ("f = t", all_crashes),
    ("everything at random", at_random),
    ("votes all 1", votes_all_1),
    ("votes one 0", votes_one_0),
    ("votes mixed", votes_mixed),
    ("reaches empty", reaches_empty),
    ("reaches single", reaches_single),
    ("reaches all but one", reaches_all_but_one),
    ("reaches full", reaches_full),
    ("earliest deciders crash", earliest_deciders_crash),
];

/// A way to choose the reach of process i among n processes.
type Reach = fn(&mut Random, usize, usize) -> Set;

/// How many sizes n and t there are: one with n = 4, two with n = 5, and so on up to the largest n.
pub const SIZES_COUNT: usize = (LARGEST - MIN_CRASHES) * (LARGEST - MIN_CRASHES + 1) / 2;

/// All sizes n and t of accepted schedules.
pub fn sizes() -> Vec<(usize, usize)> {
    SIZES
        .flat_map(|n| (MIN_CRASHES..n).map(move |t| (n, t)))
        .collect()
}

/// How far apart in the table of sizes two neighbours of a walk over them are, counted round: so that a short walk is
/// spread over all of them.
const STRIDE: usize = 1_169;

// So a walk meets every size.
const _: () = assert!(common_divisor(STRIDE, SIZES_COUNT) == 1);

const fn common_divisor(one: usize, other: usize) -> usize {
    match other {
        0 => one,
        _ => common_divisor(other, one % other),
    }
}

/// The size at a place of the walk over all sizes, which are given: each comes up once in as many places as there are
/// sizes.
pub fn walked(sizes: &[(usize, usize)], place: usize) -> (usize, usize) {
    sizes[place % sizes.len() * STRIDE % sizes.len()]
}

/// The schedule of a case and its family. All sizes are given, and walked; the walk is shifted by one each time, so
/// that every family meets every size.
pub fn of_case(random: &mut Random, sizes: &[(usize, usize)], case: u64) -> (usize, Schedule) {
    let (place, walk) = (case as usize, case as usize / sizes.len());
    let (n, t) = walked(sizes, place + walk);
    let family = place % FAMILIES.len();
    let (_, make) = FAMILIES[family];
    (family, make(random, n, t))
}

/// A schedule of any family with these n and t.
pub fn of_size(random: &mut Random, (n, t): (usize, usize)) -> Schedule {
    let (_, make) = random.pick(&FAMILIES);
    make(random, n, t)
}

/// Votes that are most often all 1, for one 0 ends every run in round 2.
fn any_votes(random: &mut Random, schedule: &mut Schedule) {
    match random.below(8) {
        0 => one_vote_0(random, schedule),
        1 => mixed_votes(random, schedule),
        _ => {}
    }
}

fn one_vote_0(random: &mut Random, schedule: &mut Schedule) {
    let place = random.below(schedule.n);
    schedule.votes[place] = 0;
}

fn mixed_votes(random: &mut Random, schedule: &mut Schedule) {
    for vote in &mut schedule.votes {
        *vote = random.below(2) as u8;
    }
}

fn empty_reach(_: &mut Random, _: usize, _: usize) -> Set {
    0
}

fn full_reach(_: &mut Random, n: usize, i: usize) -> Set {
    everyone(n) & !bit(i)
}

/// The reach that names one process other than i.
fn single_reach(random: &mut Random, n: usize, i: usize) -> Set {
    bit(other(random, n, i))
}

fn all_but_one_reach(random: &mut Random, n: usize, i: usize) -> Set {
    full_reach(random, n, i) & !single_reach(random, n, i)
}

/// A reach of any kind.
fn any_reach(random: &mut Random, n: usize, i: usize) -> Set {
    let kinds: [Reach; 4] = [empty_reach, single_reach, all_but_one_reach, full_reach];
    match random.below(8) {
        kind if kind < kinds.len() => kinds[kind](random, n, i),
        _ => full_reach(random, n, i) & random.bits(),
    }
}

/// A process other than i.
fn other(random: &mut Random, n: usize, i: usize) -> usize {
    let j = random.within(1..=n - 1);
    if j < i {
        j
    } else {
        j + 1
    }
}

/// Lets f processes, chosen at random, crash in rounds of a range with reaches of a kind; all votes are 1.
fn crashed(
    random: &mut Random,
    (n, t): (usize, usize),
    f: usize,
    rounds: RangeInclusive<usize>,
    reach: Reach,
) -> Schedule {
    let mut schedule = Schedule::quiet(n, t);
    for i in random.order(n).into_iter().take(f) {
        schedule.crashes[i - 1] = random.within(rounds.clone()) as u8;
        schedule.reaches[i - 1] = reach(random, n, i);
    }
    schedule
}

/// The same with any votes.
fn crashed_with_votes(
    random: &mut Random,
    sizes: (usize, usize),
    f: usize,
    rounds: RangeInclusive<usize>,
) -> Schedule {
    let mut schedule = crashed(random, sizes, f, rounds, any_reach);
    any_votes(random, &mut schedule);
    schedule
}

fn no_crash(random: &mut Random, n: usize, t: usize) -> Schedule {
    crashed_with_votes(random, (n, t), 0, 1..=1)
}

fn crashes_early(random: &mut Random, n: usize, t: usize) -> Schedule {
    let f = random.within(1..=t);
    crashed_with_votes(random, (n, t), f, 1..=3)
}

fn crashes_late(random: &mut Random, n: usize, t: usize) -> Schedule {
    let f = random.within(1..=t);
    crashed_with_votes(random, (n, t), f, t - 1..=t + 1)
}

fn all_but_one_crash(random: &mut Random, n: usize, t: usize) -> Schedule {
    crashed_with_votes(random, (n, t), t - 1, 1..=t + 1)
}

fn all_crashes(random: &mut Random, n: usize, t: usize) -> Schedule {
    crashed_with_votes(random, (n, t), t, 1..=t + 1)
}

fn at_random(random: &mut Random, n: usize, t: usize) -> Schedule {
    let f = random.within(0..=t);
    let mut schedule = crashed(random, (n, t), f, 1..=t + 1, |random, n, i| {
        full_reach(random, n, i) & random.bits()
    });
    mixed_votes(random, &mut schedule);
    schedule
}

/// The k-th process of an order crashes in round k.
fn one_a_round(random: &mut Random, n: usize, t: usize) -> Schedule {
    let mut schedule = Schedule::quiet(n, t);
    let f = random.within(1..=t);
    for (k, i) in (1..=f).zip(random.order(n)) {
        schedule.crashes[i - 1] = k as u8;
        schedule.reaches[i - 1] = any_reach(random, n, i);
    }
    any_votes(random, &mut schedule);
    schedule
}

/// How many processes of a chain crash: often as many as may.
fn chain_length(random: &mut Random, t: usize) -> usize {
    match random.below(3) {
        0 => random.within(1..=t),
        _ => random.within(t - 1..=t),
    }
}

/// The first process of an order crashes in round 1 and misses only the second, which so takes estimate 0; the second
/// crashes in round 2 and reaches only the third, which takes the 0 from it, and so on. The chain is sometimes broken.
fn chain_of_0(random: &mut Random, n: usize, t: usize) -> Schedule {
    let order = random.order(n);
    let mut schedule = chain(random, (n, t), &order);
    schedule.reaches[order[0] - 1] = everyone(n) & !bit(order[0]) & !bit(order[1]);
    if random.one_in(6) {
        let broken = random.pick(&order);
        schedule.reaches[broken - 1] = 0;
    }
    schedule
}

/// Each process of an order crashes a round later than the one before it and reaches only the next one, or few more.
fn chain_that_reaches_few(random: &mut Random, n: usize, t: usize) -> Schedule {
    let order = random.order(n);
    let mut schedule = chain(random, (n, t), &order);
    for i in 1..=n {
        if schedule.crash(i) != 0 && random.one_in(3) {
            schedule.reaches[i - 1] |= single_reach(random, n, i);
        }
    }
    any_votes(random, &mut schedule);
    schedule
}

/// The k-th process of the order crashes in round k and reaches only the next one.
fn chain(random: &mut Random, (n, t): (usize, usize), order: &[usize]) -> Schedule {
    let mut schedule = Schedule::quiet(n, t);
    for k in 1..=chain_length(random, t) {
        let (i, next) = (order[k - 1], order[k]);
        schedule.crashes[i - 1] = k as u8;
        schedule.reaches[i - 1] = bit(next);
    }
    schedule
}

fn votes_all_1(random: &mut Random, n: usize, t: usize) -> Schedule {
    let f = random.within(0..=t);
    crashed(random, (n, t), f, 1..=t + 1, any_reach)
}

fn votes_one_0(random: &mut Random, n: usize, t: usize) -> Schedule {
    let mut schedule = votes_all_1(random, n, t);
    one_vote_0(random, &mut schedule);
    schedule
}

fn votes_mixed(random: &mut Random, n: usize, t: usize) -> Schedule {
    let mut schedule = votes_all_1(random, n, t);
    mixed_votes(random, &mut schedule);
    schedule
}

/// Any number of crashes in any rounds, at least one, with reaches of one kind.
fn reaches(random: &mut Random, sizes: (usize, usize), reach: Reach) -> Schedule {
    let f = random.within(1..=sizes.1);
    let mut schedule = crashed(random, sizes, f, 1..=sizes.1 + 1, reach);
    any_votes(random, &mut schedule);
    schedule
}

fn reaches_empty(random: &mut Random, n: usize, t: usize) -> Schedule {
    reaches(random, (n, t), empty_reach)
}

fn reaches_single(random: &mut Random, n: usize, t: usize) -> Schedule {
    reaches(random, (n, t), single_reach)
}

fn reaches_all_but_one(random: &mut Random, n: usize, t: usize) -> Schedule {
    reaches(random, (n, t), all_but_one_reach)
}

fn reaches_full(random: &mut Random, n: usize, t: usize) -> Schedule {
    reaches(random, (n, t), full_reach)
}

/// The first process of an order crashes in round 2 and reaches two or more, which so hear everybody there and decide
/// before the rest. All of these crash later.
fn earliest_deciders_crash(random: &mut Random, n: usize, t: usize) -> Schedule {
    let order = random.order(n);
    let mut schedule = Schedule::quiet(n, t);
    schedule.crashes[order[0] - 1] = 2;
    for i in &order[1..=random.within(2..=t - 1)] {
        schedule.reaches[order[0] - 1] |= bit(*i);
        schedule.crashes[i - 1] = random.within(3..=t + 1) as u8;
        schedule.reaches[i - 1] = any_reach(random, n, *i);
    }
    schedule
}

#[cfg(test)]
mod tests {
    use super::*;
    use reference::demand3::bound;
    use reference::run::run;

    /// Schedules of a family, one for each size.
    fn of_family(family: usize) -> Vec<Schedule> {
        let mut random = Random::of_case(1, 9, family as u64);
        let (_, make) = FAMILIES[family];
        let of_size = |(n, t)| make(&mut random, n, t);
        sizes().into_iter().map(of_size).collect()
    }

    #[test]
    fn every_family_is_accepted_at_every_size() {
        assert_eq!(sizes().len(), SIZES_COUNT);
        for (family, (name, _)) in FAMILIES.iter().enumerate() {
            for schedule in of_family(family) {
                assert_eq!(schedule.ask(), Ok(()), "{name}: {schedule:?}");
            }
        }
    }

    #[test]
    fn families_are_as_named() {
        assert!(of_family(0).iter().all(|schedule| schedule.f() == 0));
        assert!(of_family(6).iter().all(|s| s.f() == s.t - 1));
        assert!(of_family(7).iter().all(|s| s.f() == s.t));
        assert!(of_family(9).iter().all(|s| !s.has_vote_0()));
        let zeros = |s: &Schedule| s.votes.iter().filter(|vote| **vote == 0).count();
        assert!(of_family(10).iter().all(|s| zeros(s) == 1));
        // The first decider survives if any of the earliest ones does.
        let first = |s: &Schedule| run(s).expect("it is accepted").counts.first;
        assert!(of_family(16).iter().all(|s| !s.survives(first(s))));
    }

    #[test]
    fn chains_often_last_until_round_b() {
        let late = |schedule: &Schedule| {
            let last = run(schedule).expect("it is accepted").counts.last;
            last as usize == bound(schedule)
        };
        let count = of_family(4).iter().filter(|s| late(s)).count();
        assert!(
            count * 100 > SIZES_COUNT * 46,
            "only {count} of {SIZES_COUNT}"
        );
    }

    #[test]
    fn a_short_walk_is_spread_over_all_sizes() {
        let sizes = sizes();
        for start in 0..sizes.len() {
            let met: Vec<(usize, usize)> = (start..start + 40)
                .map(|place| walked(&sizes, place))
                .collect();
            assert!(met.iter().any(|(n, _)| *n >= LARGEST - 2), "from {start}");
            assert!(met.iter().any(|(n, _)| *n <= LARGEST / 4), "from {start}");
        }
    }

    #[test]
    fn cases_walk_over_all_sizes() {
        let sizes = sizes();
        let size = |case| {
            let (_, schedule) = of_case(&mut Random::of_case(1, 9, case), &sizes, case);
            (schedule.n, schedule.t)
        };
        let count = SIZES_COUNT as u64;
        let mut met: Vec<(usize, usize)> = (count..2 * count).map(size).collect();
        met.sort_unstable();
        assert_eq!(met, sizes);
    }
}
