//! Calls for why a process decided, accepted and refused, through the implementation under test and through the reference:
//! the number is compared, and the two lent numbers afterwards.

use reference::questions::Refusal;
use reference::schedule::{bit, everyone, Schedule};
use reference::why::{why, Why};
use reference::{Set, LARGEST};

use crate::findings::{share, Findings};
use crate::generate::{of_size, sizes, walked, FAMILIES};
use crate::random::Random;
use crate::tables;

/// The two numbers that are lent to a call: kind and number, which it gives if the schedule and the process number are
/// accepted. A refused call leaves both.
pub type Lent = [usize; 2];

/// The call under test: it explains why a process of a schedule decided, or gives a number.
pub type Explain<'a> = &'a (dyn Fn(&Schedule, usize, &mut Lent) -> Result<(), u8> + Sync);

/// The refusal numbers that a call can get.
pub const NUMBERS: [u8; 8] = [1, 2, 3, 4, 5, 6, 7, 10];

/// The part's key for the random numbers.
const WHYS: u64 = 11;

/// A call: the schedule and the process number as given, and the two numbers as lent.
#[derive(Clone, Debug)]
struct Call {
    schedule: Schedule,
    id: usize,
    lent: Lent,
}

/// What a call gives, and the two numbers after it.
#[derive(Clone, Debug, PartialEq, Eq)]
struct Answer {
    accepted: Result<(), u8>,
    lent: Lent,
}

impl Call {
    /// Makes the call.
    fn answer(&self, explain: Explain) -> Answer {
        let mut lent = self.lent;
        let accepted = explain(&self.schedule, self.id, &mut lent);
        Answer { accepted, lent }
    }

    /// Compares the answer under test with the one expected, and counts the rule that is named if it is accepted.
    fn compare(&self, findings: &mut Findings, case: u64, expected: &Answer, explain: Explain) {
        if expected.accepted.is_ok() {
            findings.rules[expected.lent[0]] += 1;
        }
        let found = self.answer(explain);
        findings.compare(case, *expected == found, || {
            format!("call: {self:?}\nreference: {expected:?}\nunder test: {found:?}\n")
        });
    }
}

/// The reference's call.
pub fn by_reference(schedule: &Schedule, id: usize, lent: &mut Lent) -> Result<(), u8> {
    *lent = why(schedule, id).map_err(Refusal::number)?.numbers();
    Ok(())
}

/// Compares so many calls. The sizes are walked: each comes up once with every kind, and then the next one.
pub fn compare(seed: u64, count: u64, explain: Explain) -> Findings {
    let sizes = sizes();
    share(count, KINDS, |findings, case| {
        let (kind, call) = of_case(seed, &sizes, case);
        let expected = call.answer(&by_reference);
        findings.count(kind, expected.accepted.err());
        if expected.accepted.is_ok() {
            findings.sizes.insert((call.schedule.n, call.schedule.t));
        }
        call.compare(findings, case, &expected, explain);
    })
}

/// Compares a call for each process of an accepted schedule, whose answers are given in order. What the two numbers are
/// before it depends on the number of the case.
pub fn compare_accepted(
    findings: &mut Findings,
    case: u64,
    schedule: &Schedule,
    whys: &[Why],
    explain: Explain,
) {
    let mut call = Call {
        schedule: schedule.clone(),
        id: 0,
        lent: [case as usize, case as usize >> 8],
    };
    for why in whys {
        call.id += 1;
        let expected = Answer {
            accepted: Ok(()),
            lent: why.numbers(),
        };
        call.compare(findings, case, &expected, explain);
    }
}

/// How the processes are chosen among n that decide before the others.
type Few = fn(&mut Random, usize) -> Set;

/// The kinds of schedules in which few decide first, and their names.
const FIRST: [(&str, Few); 4] = [
    ("one decides first", |random, n| match random.below(3) {
        0 => bit(n),
        _ => bit(random.within(1..=n)),
    }),
    ("few decide first", |random, n| {
        let mut one = || bit(random.within(1..=n));
        one() | one() | one()
    }),
    ("nobody decides first", |_, _| 0),
    ("process n decides first, n the largest", |_, n| bit(n)),
];

/// The place of the last one among all kinds. Its n is the largest one, whatever the size is.
const OF_LARGEST: usize = FAMILIES.len() + FIRST.len() - 1;

/// All votes are 1, and there is a crash in each of rounds 1 to k, heard by all: in each of them one too many is missing, and
/// in round k + 1 still. In round k + 2, below t, one more crashes and reaches few: these decide there, and the others hear
/// of it in the next round. With k = t - 1, which is often, the same comes about in round t. Sometimes one of the few crashes
/// in that next round, and reaches few itself.
fn few_first(random: &mut Random, (n, t): (usize, usize), few: Few) -> Schedule {
    let mut schedule = Schedule::quiet(n, t);
    let reached = few(random, n);
    let order = random.order(n).into_iter();
    let (first, others): (Vec<usize>, Vec<usize>) = order.partition(|i| reached & bit(*i) != 0);
    let k = match random.below(2) {
        0 => t - 1,
        _ => random.within(0..=t - 2),
    };
    let k = k.min(others.len() - 1);
    let mut crash = |i: usize, round: usize, reach: Set| {
        schedule.crashes[i - 1] = round as u8;
        schedule.reaches[i - 1] = reach & !bit(i);
    };
    for (round, i) in (1..=k).zip(&others) {
        crash(*i, round, everyone(n));
    }
    let round = (k + 2).min(t);
    crash(others[k], round, reached);
    let later = first.first().filter(|_| k + 2 <= t && random.one_in(2));
    if let Some(i) = later {
        crash(*i, round + 1, few(random, n));
    }
    schedule
}

/// How a process number is chosen for n, which may be any number.
type Id = fn(&mut Random, usize) -> usize;

/// The kinds of process numbers and their names.
const IDS: [(&str, Id); 6] = [
    ("process 1", |_, _| 1),
    ("process n", |_, n| n),
    ("process 0", |_, _| 0),
    ("process n + 1", |_, n| n.saturating_add(1)),
    ("a process above n", |random, n| {
        let above = random.within(1..=2 * LARGEST);
        n.saturating_add(above)
    }),
    ("a process number of any size", |random, _| {
        random.any_size()
    }),
];

/// How many of them are from 1 to n; they are the first ones.
const RIGHT_IDS: usize = 2;

/// Any process number from 1 to n; 1 if n is 0.
fn any_process(random: &mut Random, n: usize) -> usize {
    random.within(1..=n.max(1))
}

/// How many kinds of calls there are: accepted schedules of each family, and such in which few decide first, with any process;
/// schedules that are changed as for the calls on tables, with any process number; accepted schedules with process numbers
/// of each kind; and one with two reasons to refuse it, 7 and 10.
pub const KINDS: usize = SEVEN_OR_10 + 1;

/// The place of the first kind with a schedule that is changed.
const CHANGED: usize = FAMILIES.len() + FIRST.len();

/// The place of the first kind with a process number of its own.
const OF_IDS: usize = CHANGED + tables::KINDS.len() - tables::ACCEPTED;

/// The place of the last kind.
const SEVEN_OR_10: usize = OF_IDS + IDS.len();

/// The names of the kinds.
pub fn names() -> Vec<&'static str> {
    let changes = tables::KINDS.iter().skip(tables::ACCEPTED);
    let mut names: Vec<&str> = FAMILIES.iter().map(|(name, _)| *name).collect();
    names.extend(FIRST.iter().map(|(name, _)| *name));
    names.extend(changes.map(|(name, _)| *name));
    names.extend(IDS.iter().map(|(name, _)| *name));
    names.push("f above t and a process out of range");
    names
}

/// The call of a case and its kind.
fn of_case(seed: u64, sizes: &[(usize, usize)], case: u64) -> (usize, Call) {
    let mut random = Random::of_case(seed, WHYS, case);
    let (walk, kind) = (case as usize / KINDS, case as usize % KINDS);
    let (schedule, id) = of_kind(&mut random, walked(sizes, walk), kind);
    let id = id(&mut random, schedule.n);
    let lent = [random.bits() as usize, random.bits() as usize];
    (kind, Call { schedule, id, lent })
}

/// The schedule of a kind, and how its process number is chosen. The calls on tables also take two answer tables: where
/// these alone are changed, the schedule is accepted still.
fn of_kind(random: &mut Random, size: (usize, usize), kind: usize) -> (Schedule, Id) {
    let changed = |random: &mut Random, change| tables::call_of_kind(random, size, change).schedule;
    if kind < FAMILIES.len() {
        let (_, make) = FAMILIES[kind];
        (make(random, size.0, size.1), any_process)
    } else if kind < CHANGED {
        let (_, few) = FIRST[kind - FAMILIES.len()];
        let n = if kind == OF_LARGEST { LARGEST } else { size.0 };
        (few_first(random, (n, size.1), few), any_process)
    } else if kind < OF_IDS {
        let change = tables::ACCEPTED + kind - CHANGED;
        let schedule = changed(random, change);
        let (_, wrong) = random.pick(&IDS[RIGHT_IDS..]);
        (schedule, random.pick(&[any_process, wrong]))
    } else if kind < SEVEN_OR_10 {
        let (_, id) = IDS[kind - OF_IDS];
        (of_size(random, size), id)
    } else {
        let schedule = changed(random, tables::F_ABOVE_T);
        let (_, wrong) = random.pick(&IDS[RIGHT_IDS..]);
        (schedule, wrong)
    }
}

#[cfg(test)]
mod tests {
    use super::*;
    use reference::why::WORDS;
    use std::collections::BTreeMap;

    /// The calls of a short walk, with their kinds and the reference's answers.
    fn walk() -> Vec<(usize, Call, Answer)> {
        let sizes = sizes();
        let of_case = |case| {
            let (kind, call) = of_case(1, &sizes, case);
            let answer = call.answer(&by_reference);
            (kind, call, answer)
        };
        (0..100 * KINDS as u64).map(of_case).collect()
    }

    #[test]
    fn kinds_are_as_named_and_refused_calls_leave_the_numbers() {
        for (kind, call, answer) in walk() {
            match answer.accepted {
                Ok(()) => assert!(answer.lent[0] < WORDS.len() && answer.lent[1] <= LARGEST),
                Err(_) => assert_eq!(answer.lent, call.lent),
            }
            match kind {
                _ if kind < CHANGED => assert_eq!(answer.accepted, Ok(())),
                OF_IDS => assert_eq!((answer.accepted, call.id), (Ok(()), 1)),
                _ if kind == OF_IDS + 1 => {
                    assert_eq!((answer.accepted, call.id), (Ok(()), call.schedule.n));
                }
                _ if (OF_IDS + 2..OF_IDS + 5).contains(&kind) => {
                    assert_eq!(answer.accepted, Err(10));
                }
                SEVEN_OR_10 => {
                    let right = (1..=call.schedule.n).contains(&call.id);
                    assert!(matches!(answer.accepted, Err(7 | 10)) || right);
                }
                _ => {}
            }
        }
    }

    /// Every number comes up with process numbers that are in range and out of it, but for 10 itself: so the order of the
    /// questions shows.
    #[test]
    fn each_number_comes_up_with_right_and_wrong_processes() {
        let mut met = BTreeMap::new();
        for (_, call, answer) in walk() {
            let right = (1..=call.schedule.n).contains(&call.id);
            *met.entry((answer.accepted.err(), right)).or_insert(0) += 1;
        }
        let all = (1..=7).flat_map(|number| [(number, false), (number, true)]);
        for (number, right) in all {
            let count = met.get(&(Some(number), right)).copied().unwrap_or(0);
            assert!(count >= 20, "{number}, {right}: {count}");
        }
        assert_eq!(met.get(&(Some(10), true)), None);
    }

    /// So the sender's number shows in many calls, and the last round does: messages of process n come up, and such in the
    /// last round.
    #[test]
    fn few_decide_first_and_the_others_are_told() {
        let one = FAMILIES.len();
        let (mut told, mut by_n, mut last, mut by_largest) = (0, 0, 0, 0);
        for (kind, call, answer) in walk() {
            if (one..one + 2).contains(&kind) {
                told += usize::from(answer.lent[0] == 1);
                by_n += usize::from(answer.lent == [1, call.schedule.n]);
            }
            last += usize::from(kind == one + 2 && answer.lent[0] == 5);
            by_largest += usize::from(kind == OF_LARGEST && answer.lent == [1, LARGEST]);
        }
        assert!(told >= 40, "only {told}");
        assert!(by_n >= 5, "only {by_n}");
        assert!(last >= 10, "only {last}");
        assert!(by_largest >= 20, "only {by_largest}");
    }

    /// So a number that isn't written, or is written though the call is refused, shows.
    #[test]
    fn the_numbers_are_not_right_before_a_call() {
        for (_, call, answer) in walk() {
            if answer.accepted.is_ok() {
                assert!(call.lent[0] != answer.lent[0] && call.lent[1] != answer.lent[1]);
            }
        }
    }

    #[test]
    fn names_of_the_kinds() {
        assert_eq!(names().len(), KINDS);
        assert_eq!(names()[0], "no crash");
        assert_eq!(names()[FAMILIES.len()], "one decides first");
        assert_eq!(names()[CHANGED], "n of any size");
        assert_eq!(names()[OF_IDS], "process 1");
        let (name, _) = tables::KINDS[tables::F_ABOVE_T];
        assert_eq!(name, "f above t");
    }
}
