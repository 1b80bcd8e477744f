//! Openings, sayings and hearings, accepted and refused, through the machine under test and through the reference.

use reference::member::{
    Member, DECIDED_0, DECIDED_1, ESTIMATE_0, ESTIMATE_1, NOTHING, STATE_BYTES,
};
use reference::questions::{Refusal, MIN_CRASHES, SIZES};
use reference::schedule::{bit, everyone};
use reference::{Set, LARGEST};

use crate::findings::{share, Findings};
use crate::generate::{sizes, walked};
use crate::random::Random;

/// A member's state as bytes: n, t, own number, round, estimate and decided round, one each, then the set of silent
/// processes as eight, the lowest first.
pub type State = [u8; STATE_BYTES];

/// How many of the bytes are numbers; the others are the set.
const NUMBERS_IN_STATE: usize = 6;

/// A member's machine; refusals are numbers, and a refused hearing leaves the state as it was.
pub trait Machine: Sync {
    /// The state of an opened member.
    fn open(&self, n: usize, t: usize, own: usize, vote: u8) -> Result<State, u8>;
    /// The code that a member says.
    fn say(&self, state: &State) -> Result<u8, u8>;
    /// Hears a row.
    fn hear(&self, state: &mut State, row: &[u8]) -> Result<(), u8>;
}

/// The refusal numbers that a member can give.
pub const NUMBERS: [u8; 11] = [1, 2, 4, 10, 11, 12, 13, 14, 15, 16, 17];

/// The part's key for the random numbers.
const MEMBERS: u64 = 4;

/// The reference's machine.
pub struct ByReference;

impl Machine for ByReference {
    fn open(&self, n: usize, t: usize, own: usize, vote: u8) -> Result<State, u8> {
        let opened = Member::open(n, t, own, vote).map_err(Refusal::number)?;
        Ok(opened.to_bytes())
    }

    fn say(&self, state: &State) -> Result<u8, u8> {
        Member::from_bytes(*state).say().map_err(Refusal::number)
    }

    fn hear(&self, state: &mut State, row: &[u8]) -> Result<(), u8> {
        let heard = Member::from_bytes(*state).hear(row);
        *state = heard.map_err(Refusal::number)?.to_bytes();
        Ok(())
    }
}

/// A call to a machine.
#[derive(Clone, Debug)]
pub enum Call {
    Open {
        n: usize,
        t: usize,
        own: usize,
        vote: u8,
    },
    Say {
        state: State,
    },
    Hear {
        state: State,
        row: Vec<u8>,
    },
}

/// What a call gives; for a hearing the state after it as well.
#[derive(Clone, Debug, PartialEq, Eq)]
enum Answer {
    Opened(Result<State, u8>),
    Said(Result<u8, u8>),
    Heard(Result<(), u8>, State),
}

impl Call {
    /// n and t.
    fn size(&self) -> (usize, usize) {
        match self {
            Call::Open { n, t, .. } => (*n, *t),
            Call::Say { state } | Call::Hear { state, .. } => (state[0].into(), state[1].into()),
        }
    }

    fn answer(&self, machine: &dyn Machine) -> Answer {
        match self {
            Call::Open { n, t, own, vote } => Answer::Opened(machine.open(*n, *t, *own, *vote)),
            Call::Say { state } => Answer::Said(machine.say(state)),
            Call::Hear { state, row } => {
                let mut state = *state;
                let heard = machine.hear(&mut state, row);
                Answer::Heard(heard, state)
            }
        }
    }
}

impl Answer {
    fn refusal(&self) -> Option<u8> {
        match self {
            Answer::Opened(answer) => answer.err(),
            Answer::Said(answer) => answer.err(),
            Answer::Heard(answer, _) => answer.err(),
        }
    }
}

/// Compares so many calls. The sizes are walked: each comes up once with every kind, and then the next one.
pub fn compare(seed: u64, count: u64, machine: &dyn Machine) -> Findings {
    let sizes = sizes();
    share(count, KINDS.len(), |findings, case| {
        let mut random = Random::of_case(seed, MEMBERS, case);
        let (walk, kind) = (case as usize / KINDS.len(), case as usize % KINDS.len());
        let (_, make) = KINDS[kind];
        let member = in_range(&mut random, walked(&sizes, walk));
        let call = make(&mut random, member);
        let (expected, found) = (call.answer(&ByReference), call.answer(machine));
        findings.count(kind, expected.refusal());
        if expected.refusal().is_none() {
            findings.sizes.insert(call.size());
        }
        findings.compare(case, expected == found, || {
            format!("call: {call:?}\nreference: {expected:?}\nunder test: {found:?}\n")
        });
    })
}

/// How a call is made from a state in range.
type Make = fn(&mut Random, Member) -> Call;

/// The kinds of calls and their names.
pub const KINDS: [(&str, Make); 14] = [
    ("open", open),
    ("open with one value of any size", open_with_one_value),
    ("open with values of any size", open_with_any_values),
    ("say in range", say),
    ("say in any state", say_in_any_state),
    ("hear", hear),
    ("hear again", hear),
    ("hear in any state", hear_in_any_state),
    ("hear a row of another length", hear_another_length),
    ("hear a code above 4", hear_another_code),
    ("hear an own place that is wrong", hear_own_place),
    ("hear codes 3 and 4 in any round", hear_decided),
    ("hear any codes", hear_any_codes),
    ("hear several wrong things", hear_several),
];

/// A state in range with these n and t, or, now and then, of the largest cluster.
fn in_range(random: &mut Random, size: (usize, usize)) -> Member {
    let (n, t) = match random.below(8) {
        0 => (LARGEST, random.within(MIN_CRASHES..=LARGEST - 1)),
        _ => size,
    };
    let own = random.within(1..=n);
    let mut member = Member {
        n,
        t,
        own,
        round: random.within(1..=t + 1),
        estimate: random.below(2) as u8,
        decided: 0,
        silent: silent_set(random, n, own),
    };
    if random.one_in(4) {
        member.decided = random.within(2..=t + 1);
        member.round = (member.decided + random.within(1..=2)).min(t + 2);
    } else if random.one_in(4) {
        member.round = random.pick(&[1, 2, t - 1, t, t + 1]);
    }
    member
}

/// A set of silent processes in range: nobody, everybody else, one of them, or any.
fn silent_set(random: &mut Random, n: usize, own: usize) -> Set {
    let others = everyone(n) & !bit(own);
    match random.below(6) {
        0 => 0,
        1 => others,
        2 => others & bit(random.within(1..=n)),
        _ => others & random.bits(),
    }
}

fn open(random: &mut Random, member: Member) -> Call {
    Call::Open {
        n: member.n,
        t: member.t,
        own: member.own,
        vote: random.below(2) as u8,
    }
}

fn open_with_one_value(random: &mut Random, member: Member) -> Call {
    let (mut n, mut t, mut own) = (member.n, member.t, member.own);
    let mut vote = member.estimate;
    match random.below(6) {
        0 => n = random.any_size(),
        1 => t = random.any_size(),
        2 => own = random.any_size(),
        3 => own = n + random.below(2),
        4 => n = random.pick(&[SIZES.start() - 1, SIZES.end() + 1]),
        _ => vote = random.byte(),
    }
    Call::Open { n, t, own, vote }
}

fn open_with_any_values(random: &mut Random, _: Member) -> Call {
    Call::Open {
        n: random.any_size(),
        t: random.any_size(),
        own: random.any_size(),
        vote: random.byte(),
    }
}

fn say(_: &mut Random, member: Member) -> Call {
    Call::Say {
        state: member.to_bytes(),
    }
}

fn say_in_any_state(random: &mut Random, member: Member) -> Call {
    Call::Say {
        state: any_state(random, member),
    }
}

/// The largest number in a state in range: the round t + 2 at the largest n and t.
const MAX_IN_STATE: usize = LARGEST + 1;

/// A state in range with one or two changes: a number, any byte, or one process in the set.
fn any_state(random: &mut Random, member: Member) -> State {
    let mut state = member.to_bytes();
    for _ in 0..random.within(1..=2) {
        match random.below(3) {
            0 => other_process(random, &member, &mut state),
            1 => other_byte(random, &mut state[..NUMBERS_IN_STATE]),
            _ => other_byte(random, &mut state),
        }
    }
    state
}

/// Changes a byte by little or to anything.
fn other_byte(random: &mut Random, bytes: &mut [u8]) {
    let place = random.below(bytes.len());
    bytes[place] = match random.below(4) {
        0 => random.byte(),
        1 => random.within(0..=MAX_IN_STATE + 1) as u8,
        2 => bytes[place].wrapping_add(1),
        _ => bytes[place].wrapping_sub(1),
    };
}

/// Takes a process into the set or out of it, often one where "in range" turns: the member itself, process n, the one
/// above it, and the last one that a set can name.
fn other_process(random: &mut Random, member: &Member, state: &mut State) {
    let turns = [member.own, member.n, (member.n + 1).min(LARGEST), LARGEST];
    let place = match random.below(3) {
        0 => random.below(LARGEST),
        _ => random.pick(&turns) - 1,
    };
    state[NUMBERS_IN_STATE + place / 8] ^= 1 << (place % 8);
}

/// A hearing with a right row, changed further.
fn changed(
    random: &mut Random,
    member: Member,
    change: impl Fn(&mut Random, &mut Vec<u8>),
) -> Call {
    let mut row = right_row(random, &member);
    change(random, &mut row);
    Call::Hear {
        state: member.to_bytes(),
        row,
    }
}

fn hear(random: &mut Random, member: Member) -> Call {
    changed(random, member, |_, _| {})
}

fn hear_in_any_state(random: &mut Random, member: Member) -> Call {
    Call::Hear {
        row: right_row(random, &member),
        state: any_state(random, member),
    }
}

fn hear_another_length(random: &mut Random, member: Member) -> Call {
    changed(random, member, other_length)
}

fn hear_another_code(random: &mut Random, member: Member) -> Call {
    changed(random, member, |random, row| other_code(random, row))
}

fn hear_own_place(random: &mut Random, member: Member) -> Call {
    changed(random, member, |random, row| {
        row[member.own - 1] = random.below(5) as u8;
    })
}

fn hear_decided(random: &mut Random, member: Member) -> Call {
    changed(random, member, |random, row| {
        decided_codes(random, row);
        row[member.own - 1] = member.says();
    })
}

fn hear_any_codes(random: &mut Random, member: Member) -> Call {
    changed(random, member, |random, row| {
        for code in row.iter_mut() {
            *code = random.below(5) as u8;
        }
        row[member.own - 1] = member.says();
    })
}

fn hear_several(random: &mut Random, member: Member) -> Call {
    let mut call = changed(random, member, |random, row| {
        for _ in 0..2 {
            match random.below(3) {
                0 => other_length(random, row),
                1 => other_code(random, row),
                _ => decided_codes(random, row),
            }
        }
    });
    if let (true, Call::Hear { state, .. }) = (random.one_in(4), &mut call) {
        *state = any_state(random, member);
    }
    call
}

/// The longest row that is heard: more than twice as long as a row of the largest cluster.
const MAX_ROW: usize = 2 * LARGEST + 5;

fn other_length(random: &mut Random, row: &mut Vec<u8>) {
    let length = match random.below(3) {
        0 => row.len() + 1,
        1 => row.len().saturating_sub(1),
        _ => random.within(0..=MAX_ROW),
    };
    row.resize(length, ESTIMATE_1);
}

fn other_code(random: &mut Random, row: &mut [u8]) {
    if let Some(place) = random.place(row.len()) {
        row[place] = match random.below(2) {
            0 => 5,
            _ => random.within(5..=255) as u8,
        };
    }
}

/// Puts one, two or three codes 3 and 4 anywhere.
fn decided_codes(random: &mut Random, row: &mut [u8]) {
    for _ in 0..random.within(1..=3) {
        if let Some(place) = random.place(row.len()) {
            row[place] = random.pick(&[DECIDED_0, DECIDED_1]);
        }
    }
}

/// A row that a member in range accepts unless it is stopped. The number of silent processes is often one where the
/// rules of document 01 turn.
fn right_row(random: &mut Random, member: &Member) -> Vec<u8> {
    let (n, t, r) = (member.n, member.t, member.round);
    let turns = [0, r.saturating_sub(2), r - 1, t - 1, t];
    let silent = match random.below(3) {
        0 => random.below(n),
        _ => random.pick(&turns),
    };
    let mut row = estimates(random, n);
    for i in random.order(n).into_iter().take(silent) {
        row[i - 1] = NOTHING;
    }
    if r > 2 && random.one_in(3) {
        let code = match member.says() {
            own @ (DECIDED_0 | DECIDED_1) => own,
            _ => random.pick(&[DECIDED_0, DECIDED_1]),
        };
        for _ in 0..random.within(1..=3) {
            row[random.below(n)] = code;
        }
    }
    row[member.own - 1] = member.says();
    row
}

/// Estimates of n processes: all 1, all 0, one 0, or mixed.
fn estimates(random: &mut Random, n: usize) -> Vec<u8> {
    let mut row = vec![ESTIMATE_1; n];
    match random.below(4) {
        0 => {}
        1 => row.fill(ESTIMATE_0),
        2 => row[random.below(n)] = ESTIMATE_0,
        _ => row.fill_with(|| random.pick(&[ESTIMATE_0, ESTIMATE_1])),
    }
    row
}

#[cfg(test)]
mod tests {
    use super::*;

    /// States in range of all sizes, each with the same state changed.
    fn states() -> impl Iterator<Item = (Member, State)> {
        let sizes = sizes();
        (0..20_000).map(move |case| {
            let mut random = Random::of_case(1, 9, case);
            let member = in_range(&mut random, walked(&sizes, case as usize));
            (member, any_state(&mut random, member))
        })
    }

    #[test]
    fn nobody_and_everybody_else_are_often_in_the_set() {
        let (mut nobody, mut everybody) = (0, 0);
        for (member, _) in states() {
            assert!(member.in_range(), "{member:?}");
            let others = everyone(member.n) & !bit(member.own);
            nobody += usize::from(member.silent == 0);
            everybody += usize::from(member.silent == others);
        }
        assert!(nobody > 2_000 && everybody > 2_000);
        assert!(nobody + everybody < 10_000);
    }

    #[test]
    fn every_byte_of_a_state_is_changed() {
        let mut changed = [0; STATE_BYTES];
        for (member, state) in states() {
            let bytes = member.to_bytes();
            for (place, count) in changed.iter_mut().enumerate() {
                *count += usize::from(bytes[place] != state[place]);
            }
        }
        assert!(changed.iter().all(|count| *count > 500), "{changed:?}");
    }

    /// The one process that is taken into the set or out of it is often the member itself, process n, the one above it,
    /// or the last one that a set can name.
    #[test]
    fn one_process_of_a_set_is_changed() {
        let mut changed = [0; 4];
        for (member, state) in states() {
            let Member { n, own, .. } = member;
            let set = Member::from_bytes(state).silent;
            let turns = [own, n, (n + 1).min(LARGEST), LARGEST];
            for (count, process) in changed.iter_mut().zip(turns) {
                let only_that = member.silent ^ set == bit(process);
                *count += usize::from(only_that);
            }
        }
        assert!(changed.iter().all(|count| *count > 1_000), "{changed:?}");
    }
}
