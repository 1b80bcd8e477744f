//! Calls for the outcome of a schedule, accepted and refused, through the implementation under test and through the
//! reference: the number is compared, and the two lent bytes afterwards.

use reference::outcome::{outcome, Outcome};
use reference::questions::Refusal;
use reference::schedule::Schedule;

use crate::findings::{share, Findings};
use crate::generate::{sizes, walked, FAMILIES};
use crate::random::Random;
use crate::tables;

/// The two bytes that are lent to a call: value and round, which it gives if the schedule is accepted. A refused call
/// leaves both.
pub type Lent = [u8; 2];

/// The call under test: it tells the outcome of a schedule, or gives a number.
pub type Tell<'a> = &'a (dyn Fn(&Schedule, &mut Lent) -> Result<(), u8> + Sync);

/// The refusal numbers that a call can get.
pub const NUMBERS: [u8; 7] = [1, 2, 3, 4, 5, 6, 7];

/// The part's key for the random numbers.
const OUTCOMES: u64 = 10;

/// A call: the schedule as given, and the two bytes as lent.
#[derive(Clone, Debug)]
struct Call {
    schedule: Schedule,
    lent: Lent,
}

/// What a call gives, and the two bytes after it.
#[derive(Clone, Debug, PartialEq, Eq)]
struct Answer {
    accepted: Result<(), u8>,
    lent: Lent,
}

impl Call {
    /// Makes the call.
    fn answer(&self, tell: Tell) -> Answer {
        let mut lent = self.lent;
        let accepted = tell(&self.schedule, &mut lent);
        Answer { accepted, lent }
    }

    /// Compares the answer under test with the one expected.
    fn compare(&self, findings: &mut Findings, case: u64, expected: &Answer, tell: Tell) {
        let found = self.answer(tell);
        findings.compare(case, *expected == found, || {
            format!("call: {self:?}\nreference: {expected:?}\nunder test: {found:?}\n")
        });
    }
}

/// An outcome as the two bytes.
pub fn bytes(Outcome { value, round }: Outcome) -> Lent {
    [value, round]
}

/// The reference's call.
pub fn by_reference(schedule: &Schedule, lent: &mut Lent) -> Result<(), u8> {
    *lent = bytes(outcome(schedule).map_err(Refusal::number)?);
    Ok(())
}

/// Compares so many calls. The sizes are walked: each comes up once with every kind, and then the next one.
pub fn compare(seed: u64, count: u64, tell: Tell) -> Findings {
    let sizes = sizes();
    share(count, KINDS, |findings, case| {
        let (kind, call) = of_case(seed, &sizes, case);
        let expected = call.answer(&by_reference);
        findings.count(kind, expected.accepted.err());
        if expected.accepted.is_ok() {
            findings.sizes.insert((call.schedule.n, call.schedule.t));
        }
        call.compare(findings, case, &expected, tell);
    })
}

/// Compares one call with an accepted schedule, whose outcome is given. What the two bytes are before it depends on the
/// number of the case.
pub fn compare_accepted(
    findings: &mut Findings,
    case: u64,
    schedule: &Schedule,
    outcome: Outcome,
    tell: Tell,
) {
    let call = Call {
        schedule: schedule.clone(),
        lent: [case as u8, (case >> 8) as u8],
    };
    let expected = Answer {
        accepted: Ok(()),
        lent: bytes(outcome),
    };
    call.compare(findings, case, &expected, tell);
}

/// How many kinds of calls there are: accepted schedules of each family, and schedules that are changed as for the calls
/// on tables.
pub const KINDS: usize = FAMILIES.len() + tables::KINDS.len() - tables::ACCEPTED;

/// The names of the kinds.
pub fn names() -> Vec<&'static str> {
    let changes = tables::KINDS.iter().skip(tables::ACCEPTED);
    let mut names: Vec<&str> = FAMILIES.iter().map(|(name, _)| *name).collect();
    names.extend(changes.map(|(name, _)| *name));
    names
}

/// The call of a case and its kind.
fn of_case(seed: u64, sizes: &[(usize, usize)], case: u64) -> (usize, Call) {
    let mut random = Random::of_case(seed, OUTCOMES, case);
    let (walk, kind) = (case as usize / KINDS, case as usize % KINDS);
    let schedule = of_kind(&mut random, walked(sizes, walk), kind);
    let lent = [random.byte(), random.byte()];
    (kind, Call { schedule, lent })
}

/// The schedule of a kind. The calls on tables also take two answer tables: where these alone are changed, the schedule is
/// accepted still.
fn of_kind(random: &mut Random, (n, t): (usize, usize), kind: usize) -> Schedule {
    match kind.checked_sub(FAMILIES.len()) {
        None => {
            let (_, make) = FAMILIES[kind];
            make(random, n, t)
        }
        Some(change) => {
            let kind = tables::ACCEPTED + change;
            tables::call_of_kind(random, (n, t), kind).schedule
        }
    }
}

#[cfg(test)]
mod tests {
    use super::*;

    /// The calls of a short walk, with their kinds and the reference's answers.
    fn walk() -> Vec<(usize, Call, Answer)> {
        let sizes = sizes();
        let of_case = |case| {
            let (kind, call) = of_case(1, &sizes, case);
            let answer = call.answer(&by_reference);
            (kind, call, answer)
        };
        (0..100 * KINDS as u64).map(of_case).collect()
    }

    #[test]
    fn families_are_accepted_and_refused_calls_leave_the_bytes() {
        for (kind, call, answer) in walk() {
            match answer.accepted {
                Ok(()) => assert!(answer.lent[0] <= 1 && answer.lent[1] >= 2),
                Err(_) => {
                    assert!(kind >= FAMILIES.len());
                    assert_eq!(answer.lent, call.lent);
                }
            }
        }
    }

    /// So a byte that isn't written, or is written though the call is refused, shows.
    #[test]
    fn the_bytes_are_seldom_right_before_a_call() {
        let (mut accepted, mut right) = (0, 0);
        for (_, call, answer) in walk() {
            if answer.accepted.is_ok() {
                accepted += 1;
                right += usize::from(call.lent[0] == answer.lent[0]);
                right += usize::from(call.lent[1] == answer.lent[1]);
            }
        }
        assert!(right * 50 < accepted, "{right} of {accepted}");
    }

    #[test]
    fn kinds_and_their_names() {
        assert_eq!(names().len(), KINDS);
        assert_eq!(names()[0], "no crash");
        assert_eq!(names()[FAMILIES.len()], "n of any size");
    }
}
