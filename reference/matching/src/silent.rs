//! Wrong implementations that document 02's K7 invites: a set of silent processes that wrong rows set, or that names
//! wrong processes; a wrong question about it in "in range"; and bytes of it in a wrong order.

use reference::member::{has_decided, silent_in, Member, ESTIMATE_0};
use reference::questions::SIZES;
use reference::schedule::{bit, everyone};
use reference::{Set, LARGEST};

use crate::members::{ByReference, Machine, State};
use crate::wrong::{Hear, Take};

/// Wrong ways of hearing that show in a run: rows that should leave the set, then rows that should set it and don't,
/// then sets of wrong processes.
pub const IN_RUNS: [(&str, Hear); 12] = [
    ("the set made in round 1", |m, row| {
        with_set(m, row, in_round_1, silent_in(row))
    }),
    ("the set made by a row with a decided message", |m, row| {
        with_set(m, row, hears_decided, silent_in(row))
    }),
    ("the set made by a decided member", |m, row| {
        with_set(m, row, is_decided, silent_in(row) & !bit(m.own))
    }),
    ("the set emptied by a decided message", |m, row| {
        with_set(m, row, hears_decided, 0)
    }),
    ("the set not made in round 2", |m, row| {
        with_set(m, row, |m, row| sets(m, row) && m.round == 2, m.silent)
    }),
    ("the set not made by a row that decides", |m, row| {
        with_set(m, row, |m, row| sets(m, row) && decides(m, row), m.silent)
    }),
    ("the set made by rows that decide alone", |m, row| {
        with_set(m, row, |m, row| sets(m, row) && !decides(m, row), m.silent)
    }),
    ("a set kept if it isn't empty", |m, row| {
        with_set(m, row, |m, row| sets(m, row) && m.silent != 0, m.silent)
    }),
    ("those named that sent an estimate of 0", |m, row| {
        let named = silent_in(row) | senders(row, ESTIMATE_0);
        with_set(m, row, sets, named & !bit(m.own))
    }),
    ("the own number named", |m, row| {
        with_set(m, row, sets, silent_in(row) | bit(m.own))
    }),
    ("a set cut to 32 bits", |m, row| {
        with_set(m, row, sets, silent_in(row) & everyone(32))
    }),
    ("a set without process 64", |m, row| {
        with_set(m, row, sets, silent_in(row) & !bit(LARGEST))
    }),
];

/// The place of the first of these in which a row should set it. From there on they break what holds of it in a run.
pub const SHOULD_SET: usize = 4;

/// Wrong ways of hearing that don't show in a run. There whoever is silent stays so, the set is empty in round 1, and
/// one that is undecided after round t hears nobody who crashes, there and in the last round.
pub const IN_ANY_STATE: [(&str, Hear); 3] = [
    ("the set joined with the one before", |m, row| {
        with_set(m, row, sets, silent_in(row) | m.silent)
    }),
    ("the set emptied in round 1", |m, row| {
        with_set(m, row, in_round_1, 0)
    }),
    ("the set not made in the last round", |m, row| {
        with_set(
            m,
            row,
            |m, row| sets(m, row) && m.round == m.t + 1,
            m.silent,
        )
    }),
];

/// What hearing a row does, with another set after the rows of a kind.
fn with_set(
    member: &Member,
    row: &[u8],
    kind: impl Fn(&Member, &[u8]) -> bool,
    silent: Set,
) -> Member {
    let mut next = member.after(row);
    if kind(member, row) {
        next.silent = silent;
    }
    next
}

/// The four kinds of rows: one that a decided member hears, one of round 1, one with a decided message, and one that
/// sets the set.
fn is_decided(member: &Member, _: &[u8]) -> bool {
    member.decided != 0
}

fn in_round_1(member: &Member, row: &[u8]) -> bool {
    !is_decided(member, row) && member.round == 1
}

fn hears_decided(member: &Member, row: &[u8]) -> bool {
    !is_decided(member, row) && member.round != 1 && has_decided(row)
}

fn sets(member: &Member, row: &[u8]) -> bool {
    !is_decided(member, row) && member.round != 1 && !has_decided(row)
}

/// Whether a member that is undecided decides on a row.
fn decides(member: &Member, row: &[u8]) -> bool {
    member.after(row).decided != 0
}

/// The processes that sent a code.
fn senders(row: &[u8], code: u8) -> Set {
    let senders = (1..).zip(row).filter(|(_, sent)| **sent == code);
    senders.fold(0, |set, (i, _)| set | bit(i))
}

/// Wrong questions about the set in "in range": processes that are let pass, as if they weren't named, and states that
/// are refused.
pub const TAKEN: [(&str, Take); 10] = [
    ("the own number let pass in a set", |m| {
        let own = if numbers_in_range(&m) { bit(m.own) } else { 0 };
        without(m, own)
    }),
    ("processes above n let pass in a set", |m| {
        without(m, above_n(&m))
    }),
    ("any set let pass", |m| without(m, out_of_range(&m))),
    ("any set let pass in a stopped member", |m| {
        let let_pass = if m.stopped() { out_of_range(&m) } else { 0 };
        without(m, let_pass)
    }),
    ("process 64 let pass in a set at n = 63", |m| {
        let let_pass = if m.n == LARGEST - 1 { bit(LARGEST) } else { 0 };
        without(m, let_pass)
    }),
    ("any set let pass at n = 64", |m| {
        let let_pass = if m.n == LARGEST { out_of_range(&m) } else { 0 };
        without(m, let_pass)
    }),
    // The set of all, by a shift by n: 1 << 64 is taken as 1 << 0, and 1 less is nobody.
    ("every set but the empty one refused at n = 64", |m| {
        unless(m, m.n == LARGEST && m.silent != 0)
    }),
    ("process 64 refused in a set", |m| {
        unless(m, m.silent & bit(LARGEST) != 0)
    }),
    ("a set refused before round 3", |m| {
        unless(m, m.round < 3 && m.silent != 0)
    }),
    ("more than t processes refused in a set", |m| {
        unless(m, m.silent.count_ones() as usize > m.t)
    }),
];

/// The state without some processes in its set.
fn without(mut member: Member, processes: Set) -> Option<Member> {
    member.silent &= !processes;
    Some(member)
}

/// The state, if it isn't refused.
fn unless(member: Member, refused: bool) -> Option<Member> {
    (!refused).then_some(member)
}

/// Whether n and the own number are in their limits.
fn numbers_in_range(member: &Member) -> bool {
    SIZES.contains(&member.n) && (1..=member.n).contains(&member.own)
}

/// The processes above n; nobody if n isn't in its limits.
fn above_n(member: &Member) -> Set {
    if SIZES.contains(&member.n) {
        !everyone(member.n)
    } else {
        0
    }
}

/// The processes that may not be named: those above n and the own one.
fn out_of_range(member: &Member) -> Set {
    if numbers_in_range(member) {
        above_n(member) | bit(member.own)
    } else {
        0
    }
}

/// Everybody else is in the set of an opened member.
pub fn all_others(member: &Member) -> Set {
    everyone(member.n) & !bit(member.own)
}

/// A hearing refused with 17 empties the set.
pub fn emptied(state: &mut State, _: &[u8], number: u8) -> u8 {
    if number == 17 {
        let mut member = Member::from_bytes(*state);
        member.silent = 0;
        *state = member.to_bytes();
    }
    number
}

/// A machine that has the bytes of the set in the other order, the highest first.
pub struct HighestFirst;

impl HighestFirst {
    /// The state with the bytes of its set in the other order.
    fn turned(state: &State) -> State {
        let mut member = Member::from_bytes(*state);
        member.silent = member.silent.swap_bytes();
        member.to_bytes()
    }
}

impl Machine for HighestFirst {
    fn open(&self, n: usize, t: usize, own: usize, vote: u8) -> Result<State, u8> {
        let opened = ByReference.open(n, t, own, vote)?;
        Ok(HighestFirst::turned(&opened))
    }

    fn say(&self, state: &State) -> Result<u8, u8> {
        ByReference.say(&HighestFirst::turned(state))
    }

    fn hear(&self, state: &mut State, row: &[u8]) -> Result<(), u8> {
        let mut turned = HighestFirst::turned(state);
        ByReference.hear(&mut turned, row)?;
        *state = HighestFirst::turned(&turned);
        Ok(())
    }
}

#[cfg(test)]
mod tests {
    use super::*;
    use crate::generate::{sizes, FAMILIES};
    use crate::random::Random;
    use crate::wrong::{Wrong, RIGHT};
    use reference::run::play_heard;

    /// A member of n = 5, t = 4 with own number 2, and processes 3 and 5 in its set.
    fn member(round: usize, estimate: u8, decided: usize) -> Member {
        Member {
            n: 5,
            t: 4,
            own: 2,
            round,
            estimate,
            decided,
            silent: 0b10100,
        }
    }

    /// The places of the wrong ways whose state after a row differs from the right one, each with its set.
    fn wrong_sets(member: Member, row: [u8; 5], right: Set) -> Vec<(usize, Set)> {
        let next = member.after(&row);
        assert_eq!(next.silent, right);
        let ways = IN_RUNS.into_iter().chain(IN_ANY_STATE);
        let found = ways.map(|(_, hear)| hear(&member, &row));
        let differ = found.enumerate().filter(|(_, found)| *found != next);
        differ.map(|(place, found)| (place, found.silent)).collect()
    }

    #[test]
    fn wrong_ways_in_rows_that_leave_the_set() {
        // Round 1: process 1 is silent.
        let expected = [(0, 0b00001), (13, 0)];
        assert_eq!(
            wrong_sets(member(1, 1, 0), [0, 2, 2, 2, 2], 0b10100),
            expected
        );
        // A decided message of process 4; 1 is silent.
        let expected = [(1, 0b01001), (3, 0)];
        assert_eq!(
            wrong_sets(member(3, 1, 0), [0, 2, 2, 4, 2], 0b10100),
            expected
        );
        // A decided member; 1 and 4 sent no estimate.
        let expected = [(2, 0b01001)];
        assert_eq!(
            wrong_sets(member(4, 1, 3), [0, 4, 2, 4, 2], 0b10100),
            expected
        );
    }

    #[test]
    fn wrong_ways_in_rows_that_set_it() {
        // Round 2: process 1 is silent, and nothing is decided.
        let expected = [
            (4, 0b10100),
            (6, 0b10100),
            (7, 0b10100),
            (9, 0b00011),
            (12, 0b10101),
        ];
        assert_eq!(
            wrong_sets(member(2, 1, 0), [0, 2, 2, 2, 2], 0b00001),
            expected
        );
        // Round 5 = t + 1: 4 is silent, 1 sends 0, and the row decides.
        let expected = [
            (5, 0b10100),
            (7, 0b10100),
            (8, 0b01001),
            (9, 0b01010),
            (12, 0b11100),
            (14, 0b10100),
        ];
        assert_eq!(
            wrong_sets(member(5, 1, 0), [1, 2, 2, 0, 2], 0b01000),
            expected
        );
    }

    #[test]
    fn sets_that_are_too_narrow() {
        let mut row = [0; 64];
        row[0] = 2;
        let member = Member::open(64, 63, 1, 1).expect("the member is opened");
        let second = Member { round: 2, ..member };
        let set = |place: usize| IN_RUNS[place].1(&second, &row).silent;
        assert_eq!(set(10), 0xffff_fffe);
        assert_eq!(set(11), 0x7fff_ffff_ffff_fffe);
        assert_eq!(second.after(&row).silent, 0xffff_ffff_ffff_fffe);
    }

    /// So arbitrary states have to be compared to find these.
    #[test]
    fn some_wrong_ways_show_in_no_run() {
        let small = sizes().into_iter().filter(|(n, _)| *n <= 16);
        let mut random = Random::of_case(1, 9, 0);
        for (n, t) in small {
            for (_, make) in FAMILIES {
                let schedule = make(&mut random, n, t);
                let right = play_heard(&schedule, Member::after);
                for (name, hear) in IN_ANY_STATE {
                    assert_eq!(play_heard(&schedule, hear), right, "{name}");
                }
            }
        }
    }

    /// What each of the wrong questions says of a state with a set: the places of those that answer wrongly.
    fn wrong_answers(state: Member, silent: Set) -> Vec<usize> {
        let state = Member { silent, ..state };
        let answers = TAKEN.map(|(_, taken)| {
            let machine = Wrong { taken, ..RIGHT };
            machine.say(&state.to_bytes()).is_ok()
        });
        let differ = |(_, answer): &(usize, &bool)| **answer != state.in_range();
        let wrong = answers.iter().enumerate().filter(differ);
        wrong.map(|(place, _)| place).collect()
    }

    #[test]
    fn wrong_questions_about_the_set() {
        let third = member(3, 1, 0);
        assert_eq!(wrong_answers(third, 0b10100), []);
        assert_eq!(wrong_answers(third, 0b00010), [0, 2]);
        assert_eq!(wrong_answers(third, 0b100000), [1, 2]);
        assert_eq!(wrong_answers(third, 0b100010), [2]);
        assert_eq!(wrong_answers(member(5, 1, 3), bit(64)), [1, 2, 3]);
        assert_eq!(wrong_answers(member(2, 1, 0), 0b10100), [8]);
        let of_size = |n, own| Member {
            n,
            own,
            t: 3,
            ..third
        };
        assert_eq!(wrong_answers(of_size(63, 1), bit(64)), [1, 2, 4]);
        assert_eq!(wrong_answers(of_size(64, 1), bit(64)), [6, 7]);
        assert_eq!(wrong_answers(of_size(64, 1), bit(1)), [0, 2, 5]);
        assert_eq!(wrong_answers(of_size(64, 1), bit(2)), [6]);
        assert_eq!(wrong_answers(of_size(6, 1), 0b111100), [9]);
        // Other numbers out of range are refused in any case.
        for (n, own) in [(65, 1), (3, 1), (5, 0), (5, 6), (255, 255)] {
            assert_eq!(wrong_answers(of_size(n, own), Set::MAX), []);
        }
    }

    #[test]
    fn bytes_with_the_highest_first() {
        let mut state = Member::open(4, 3, 4, 1).expect("it is opened").to_bytes();
        assert_eq!(HighestFirst.open(4, 3, 4, 1), Ok(state));
        state[3] = 2;
        assert_eq!(HighestFirst.hear(&mut state, &[0, 2, 2, 2]), Ok(()));
        assert_eq!(state, [4, 3, 4, 3, 1, 0, 0, 0, 0, 0, 0, 0, 0, 1]);
        assert_eq!(HighestFirst.say(&state), Ok(2));
        state[6..].rotate_right(1);
        assert_eq!(HighestFirst.say(&state), Err(11));
    }
}
