//! Wrong implementations that document 02's K11 invites: a limit that is still the one of document 01, a limit that
//! lets one more in, and a set of processes, or a number, that is too narrow.

use reference::crashes::{count_crashes, CrashCount};
use reference::member::{Member, ESTIMATE_1};
use reference::questions::Refusal;
use reference::report::{answer, refusal, report};
use reference::run::{play, Counts, Run};
use reference::schedule::{bit, Schedule};
use reference::text::{read, Refused};
use reference::{Set, LARGEST};

use crate::members::{ByReference, Machine, State};
use crate::tables::by_reference;
use crate::wrong::{answer_by, number};

/// The largest cluster of document 01.
pub const OLD_LARGEST: usize = 32;

/// The length of the longest text of document 01.
pub const OLD_LONGEST: usize = 2_048;

/// A refusal of an accepted schedule: the question, and the line of a text.
pub type Refuse = fn(&Schedule) -> Option<Refused>;

/// Accepted schedules that are refused.
pub const REFUSED: [(&str, Refuse); 5] = [
    ("n above 32 still refused", |s| {
        refused(s.n > OLD_LARGEST, Refusal::Processes, 2)
    }),
    ("tables of 32 asked for above n = 32", |s| {
        refused(s.n > OLD_LARGEST, Refusal::Tables, 0)
    }),
    ("crash rounds above 32 refused", |s| {
        refused_process(s, Refusal::CrashRound, |i| s.crash(i) > OLD_LARGEST)
    }),
    // The set of all, by a shift by n: 1 << 64 is taken as 1 << 0, and 1 less is nobody.
    ("every reach refused at n = 64", |s| {
        refused_process(s, Refusal::Reach, |i| {
            s.n == LARGEST && s.reaches[i - 1] != 0
        })
    }),
    // The set of all without its last bit.
    ("a reach of process 64 refused", |s| {
        refused_process(s, Refusal::Reach, |i| s.names(i, LARGEST))
    }),
];

fn refused(refuses: bool, refusal: Refusal, line: usize) -> Option<Refused> {
    refuses.then_some(Refused { refusal, line })
}

/// Refuses the first process that is as given.
fn refused_process(
    schedule: &Schedule,
    refusal: Refusal,
    is: impl Fn(usize) -> bool,
) -> Option<Refused> {
    let process = (1..=schedule.n).find(|i| is(*i))?;
    let line = 3 + process;
    Some(Refused { refusal, line })
}

/// A program that refuses some accepted schedules.
pub fn program_refusing(refuse: Refuse) -> impl Fn(&[u8]) -> Result<Vec<u8>, String> + Sync {
    move |text| {
        let accepted = read(text).ok();
        let refused = accepted.and_then(|schedule| refuse(&schedule));
        Ok(match refused {
            Some(refused) => refusal(text, refused),
            None => answer(text),
        })
    }
}

/// A call on tables that refuses some accepted schedules.
pub fn simulate_refusing(
    refuse: Refuse,
) -> impl Fn(&Schedule, &mut [u8], &mut [u8]) -> Result<Counts, u8> + Sync {
    move |schedule, decisions, rounds| {
        let asked = schedule.ask_tables(decisions.len(), rounds.len());
        asked.map_err(Refusal::number)?;
        match refuse(schedule) {
            Some(refused) => Err(refused.refusal.number()),
            None => by_reference(schedule, decisions, rounds),
        }
    }
}

/// A change of a reach before the run.
pub type Cut = fn(Set) -> Set;

/// Reaches that are accepted, and then kept wrongly.
pub const CUTS: [(&str, Cut); 3] = [
    ("a reach cut to 32 bits", |reach| reach & LOW),
    ("a reach without process 64", |reach| reach & !bit(LARGEST)),
    // 1 << 32 is taken as 1 << 0.
    ("processes above 32 taken for those from 1", |reach| {
        (reach | reach >> OLD_LARGEST) & LOW
    }),
];

/// Processes 1 to 32.
const LOW: Set = (1 << OLD_LARGEST) - 1;

/// The run of an accepted schedule whose reaches are kept wrongly.
fn cut_run(schedule: &Schedule, cut: Cut) -> Run {
    let mut schedule = schedule.clone();
    for reach in &mut schedule.reaches {
        *reach = cut(*reach);
    }
    play(&schedule, Member::after)
}

/// A program that keeps reaches wrongly.
pub fn program_cutting(cut: Cut) -> impl Fn(&[u8]) -> Result<Vec<u8>, String> + Sync {
    move |text| {
        Ok(match read(text) {
            Err(_) => answer(text),
            Ok(schedule) => report(&schedule, &cut_run(&schedule, cut)),
        })
    }
}

/// A call on tables that keeps reaches wrongly.
pub fn simulate_cutting(
    cut: Cut,
) -> impl Fn(&Schedule, &mut [u8], &mut [u8]) -> Result<Counts, u8> + Sync {
    move |schedule, decisions, rounds| {
        answer_by(schedule, decisions, rounds, |schedule| {
            cut_run(schedule, cut)
        })
    }
}

/// The messages are kept in two bytes.
pub fn messages_in_two_bytes(_: &Schedule, run: &mut Run) {
    run.counts.messages %= 1 << 16;
}

/// Estimates are counted in six bits, so that 64 of them are none: too few in round 1.
pub fn estimates_in_six_bits(member: &Member, row: &[u8]) -> Member {
    let mut next = member.after(row);
    if member.round == 1 && row == [ESTIMATE_1; LARGEST] {
        next.estimate = 0;
    }
    next
}

/// Texts longer than the longest of document 01 are still refused.
pub fn short_texts_only(text: &[u8]) -> Result<Vec<u8>, String> {
    let too_long = Refused {
        refusal: Refusal::TooLong,
        line: 0,
    };
    Ok(match text.len() {
        0..=OLD_LONGEST => answer(text),
        _ => refusal(text, too_long),
    })
}

/// n = 65 is let in on line 2, and the line of process 1, whose reach has fewer letters, is refused.
pub fn line_of_65(text: &[u8], mut refused: Refused) -> Vec<u8> {
    if refused.refusal == Refusal::Processes && number(text, 2, 0) == LARGEST + 1 {
        refused.refusal = Refusal::Form;
        refused.line = 4;
    }
    refusal(text, refused)
}

/// n = 65 is let in, and process 65 left out.
pub fn tables_of_65(
    schedule: &Schedule,
    decisions: &mut [u8],
    rounds: &mut [u8],
) -> Result<Counts, u8> {
    if schedule.n != LARGEST + 1 {
        return by_reference(schedule, decisions, rounds);
    }
    let mut schedule = schedule.clone();
    schedule.n = LARGEST;
    schedule.votes.truncate(LARGEST);
    schedule.crashes.truncate(LARGEST);
    schedule.reaches.truncate(LARGEST);
    let decided = decisions.len().min(LARGEST);
    let with_round = rounds.len().min(LARGEST);
    by_reference(
        &schedule,
        &mut decisions[..decided],
        &mut rounds[..with_round],
    )
}

/// A reach that names process 64 is let pass at n = 63, as if the set of all had one bit more.
pub fn process_64_of_63(
    schedule: &Schedule,
    decisions: &mut [u8],
    rounds: &mut [u8],
) -> Result<Counts, u8> {
    let mut schedule = schedule.clone();
    if schedule.n == LARGEST - 1 {
        for reach in &mut schedule.reaches {
            *reach &= !bit(LARGEST);
        }
    }
    by_reference(&schedule, decisions, rounds)
}

/// Every reach is let pass at n = 64, where there is no process above n: that of the own process, too.
pub fn any_reach_of_64(
    schedule: &Schedule,
    decisions: &mut [u8],
    rounds: &mut [u8],
) -> Result<Counts, u8> {
    let mut schedule = schedule.clone();
    if schedule.n == LARGEST {
        for (place, reach) in schedule.reaches.iter_mut().enumerate().take(LARGEST) {
            *reach &= !bit(place + 1);
        }
    }
    by_reference(&schedule, decisions, rounds)
}

/// A rounds table that is too long is let pass above n = 32.
pub fn long_table_above_32(
    schedule: &Schedule,
    decisions: &mut [u8],
    rounds: &mut [u8],
) -> Result<Counts, u8> {
    let length = match schedule.n {
        0..=OLD_LARGEST => rounds.len(),
        _ => rounds.len().min(decisions.len()),
    };
    by_reference(schedule, decisions, &mut rounds[..length])
}

/// Crashes of processes above 32 are left out of the count.
pub fn crashes_of_32(t: usize, crashes: &[u8]) -> Result<CrashCount, u8> {
    let looked_at = crashes.len().min(OLD_LARGEST);
    Ok(count_crashes(t, &crashes[..looked_at]))
}

/// A machine with another largest n.
pub struct UpTo(pub usize);

impl UpTo {
    /// The state as the reference takes it: where n is above the reference's largest, that one stands for it.
    fn taken(&self, state: &State) -> Result<State, u8> {
        let n = usize::from(state[0]);
        if n > self.0 {
            return Err(Refusal::State.number());
        }
        let mut taken = *state;
        taken[0] = n.min(LARGEST) as u8;
        Ok(taken)
    }
}

impl Machine for UpTo {
    fn open(&self, n: usize, t: usize, own: usize, vote: u8) -> Result<State, u8> {
        if n > self.0 {
            return Err(Refusal::Processes.number());
        }
        let mut state = ByReference.open(n.min(LARGEST), t, own, vote)?;
        state[0] = n as u8;
        Ok(state)
    }

    fn say(&self, state: &State) -> Result<u8, u8> {
        ByReference.say(&self.taken(state)?)
    }

    fn hear(&self, state: &mut State, row: &[u8]) -> Result<(), u8> {
        let mut taken = self.taken(state)?;
        ByReference.hear(&mut taken, row)?;
        state[1..].copy_from_slice(&taken[1..]);
        Ok(())
    }
}

#[cfg(test)]
mod tests {
    use super::*;
    use crate::generate::{sizes, FAMILIES};
    use crate::random::Random;

    /// A schedule of each family at each size of document 01.
    fn old_schedules() -> impl Iterator<Item = Schedule> {
        let old = sizes().into_iter().filter(|(n, _)| *n <= OLD_LARGEST);
        let mut random = Random::of_case(1, 9, 0);
        old.flat_map(move |(n, t)| FAMILIES.map(|(_, make)| make(&mut random, n, t)))
    }

    /// So larger clusters have to be compared to find these.
    #[test]
    fn none_shows_in_a_cluster_of_document_01() {
        for schedule in old_schedules() {
            for (name, refuse) in REFUSED {
                assert_eq!(refuse(&schedule), None, "{name}");
            }
            for (name, cut) in CUTS {
                assert!(
                    schedule.reaches.iter().all(|reach| cut(*reach) == *reach),
                    "{name}"
                );
            }
            let mut run = play(&schedule, estimates_in_six_bits);
            messages_in_two_bytes(&schedule, &mut run);
            assert_eq!(run, play(&schedule, Member::after));
        }
    }

    /// The refusals of a schedule with n = 64 and t = 63: the number and the line of each in turn.
    fn refusals(schedule: &Schedule) -> Vec<(u8, usize)> {
        let refusals = REFUSED.iter().filter_map(|(_, refuse)| refuse(schedule));
        refusals.map(|r| (r.refusal.number(), r.line)).collect()
    }

    #[test]
    fn accepted_schedules_that_are_refused() {
        let mut schedule = Schedule::quiet(64, 63);
        assert_eq!(refusals(&schedule), [(1, 2), (3, 0)]);
        schedule.crashes[40] = 33;
        assert_eq!(refusals(&schedule), [(1, 2), (3, 0), (5, 44)]);
        schedule.reaches[40] = bit(63);
        assert_eq!(refusals(&schedule), [(1, 2), (3, 0), (5, 44), (6, 44)]);
        schedule.crashes[2] = 1;
        schedule.reaches[2] = bit(64);
        let expected = [(1, 2), (3, 0), (5, 44), (6, 6), (6, 6)];
        assert_eq!(refusals(&schedule), expected);
    }

    #[test]
    fn reaches_that_are_kept_wrongly() {
        let cut = |reach| CUTS.map(|(_, cut)| cut(reach));
        assert_eq!(cut(bit(32)), [bit(32), bit(32), bit(32)]);
        assert_eq!(cut(bit(33)), [0, bit(33), bit(1)]);
        assert_eq!(cut(bit(64)), [0, 0, bit(32)]);
    }

    #[test]
    fn crashes_that_are_left_out() {
        let nothing_left_out = CrashCount {
            count: 32,
            looked_at: 32,
        };
        for n in [32, 33, 64] {
            assert_eq!(crashes_of_32(n, &vec![1; n]), Ok(nothing_left_out));
        }
    }

    /// The state of process 1 of n with t = 3, estimate 1 and an empty set, undecided.
    fn state(n: u8, round: u8) -> State {
        [n, 3, 1, round, 1, 0, 0, 0, 0, 0, 0, 0, 0, 0]
    }

    #[test]
    fn machines_with_another_largest_n() {
        assert_eq!(UpTo(32).open(32, 3, 1, 1), Ok(state(32, 1)));
        assert_eq!(UpTo(32).open(33, 3, 1, 1), Err(1));
        assert_eq!(UpTo(32).say(&state(33, 1)), Err(11));
        assert_eq!(UpTo(65).open(65, 3, 1, 1), Ok(state(65, 1)));
        assert_eq!(UpTo(65).say(&state(65, 1)), Ok(2));
        let mut heard = state(65, 1);
        assert_eq!(UpTo(65).hear(&mut heard, &[2; 64]), Ok(()));
        assert_eq!(heard, state(65, 2));
        assert_eq!(UpTo(65).open(66, 3, 1, 1), Err(1));
    }
}
