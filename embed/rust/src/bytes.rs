//! The calls on bare bytes and numbers, as `embed/fcwfa.h` has them, for programs that carry or test any bytes.
//!
//! Each call takes any values. It does its work, or answers the number of the first question whose answer is no and leaves everything it
//! was lent as it was, with one exception: [`read_schedule`] then writes the number of the refused line.
//! [`Refusal::from_number`](crate::Refusal::from_number) has the words for a number. The contract at the top of this crate is that of
//! these calls too.
//!
//! Everything unsafe in this crate is here.
#![allow(unsafe_code)]

use std::mem::size_of;
use std::slice::from_raw_parts;

use crate::{Code, Counts, CrashCount, Set, Vote};

/// A member's state: n, t, own number, the round to play next, the estimate and the decided round, a byte each, and the silent set, a
/// [`Set`] as eight bytes, lowest first.
pub type State = [u8; 14];

/// The decision of a process that made none; its round is 0.
pub const NO_DECISION: u8 = 2;

/// The place of what is decided, 0 (abort) or 1 (commit), among the two bytes of [`outcome`].
pub const OUTCOME_DECISION: usize = 0;

/// The place of the round among them, the first one in which some process decides.
pub const OUTCOME_ROUND: usize = 1;

/// The place of what decided the process among the two numbers of [`why`]: 0 nothing, it crashed, 1 told, 2 zeros only, 3 a quiet round,
/// 4 round t, 5 the last round.
pub const WHY_KIND: usize = 0;

/// The place of the number that goes with it among them: the crash round, the sender, 0, the estimates that were missing, the estimates that
/// were heard, 0.
pub const WHY_NUMBER: usize = 1;

/// The place of n, the number of processes, among the three numbers of [`read_schedule`]. It is written if the text is accepted.
pub const READ_N: usize = 0;

/// The place of t, the number of crashes to bear, among them. It is written if the text is accepted.
pub const READ_T: usize = 1;

/// The place of the number of the refused line, from 1, or 0 for no line, among them. It is written if the text is refused.
pub const READ_LINE: usize = 2;

mod foreign {
    use crate::Set;

    extern "C" {
        pub fn fcwfa_open(n: usize, t: usize, id: usize, vote: u8, state: *mut u8) -> u8;
        pub fn fcwfa_say(state: *const u8, code: *mut u8) -> u8;
        pub fn fcwfa_hear(state: *mut u8, row: *const u8, row_length: usize) -> u8;
        pub fn fcwfa_simulate(
            n: usize,
            t: usize,
            votes: *const u8,
            votes_length: usize,
            crashes: *const u8,
            crashes_length: usize,
            reaches: *const Set,
            reaches_length: usize,
            decisions: *mut u8,
            decisions_length: usize,
            rounds: *mut u8,
            rounds_length: usize,
            counts: *mut usize,
        ) -> u8;
        pub fn fcwfa_outcome(
            n: usize,
            t: usize,
            votes: *const u8,
            votes_length: usize,
            crashes: *const u8,
            crashes_length: usize,
            reaches: *const Set,
            reaches_length: usize,
            outcome: *mut u8,
        ) -> u8;
        pub fn fcwfa_why(
            n: usize,
            t: usize,
            votes: *const u8,
            votes_length: usize,
            crashes: *const u8,
            crashes_length: usize,
            reaches: *const Set,
            reaches_length: usize,
            id: usize,
            why: *mut usize,
        ) -> u8;
        pub fn fcwfa_count_crashes(
            t: usize,
            crashes: *const u8,
            crashes_length: usize,
            counted: *mut usize,
        ) -> u8;
        pub fn fcwfa_write_schedule(
            n: usize,
            t: usize,
            votes: *const u8,
            votes_length: usize,
            crashes: *const u8,
            crashes_length: usize,
            reaches: *const Set,
            reaches_length: usize,
            text: *mut u8,
            text_length: usize,
            used: *mut usize,
        ) -> u8;
        pub fn fcwfa_read_schedule(
            text: *const u8,
            text_length: usize,
            votes: *mut u8,
            votes_length: usize,
            crashes: *mut u8,
            crashes_length: usize,
            reaches: *mut Set,
            reaches_length: usize,
            read: *mut usize,
        ) -> u8;
    }
}

/// A call's number as a result: 0 is no refusal.
fn accepted<T>(number: u8, value: T) -> Result<T, u8> {
    match number {
        0 => Ok(value),
        _ => Err(number),
    }
}

/// The state of a new member `id`, from 1, of a cluster of n, from 4 to [`LARGEST`](crate::LARGEST), that bears t crashes, with its vote,
/// 0 (abort) or 1 (commit). Refusals: 1, 2, 10, 4.
pub fn open(n: usize, t: usize, id: usize, vote: u8) -> Result<State, u8> {
    let mut state = [0; 14];
    // SAFETY: the pointer is good for the fourteen bytes that the function writes.
    let number = unsafe { foreign::fcwfa_open(n, t, id, vote, state.as_mut_ptr()) };
    accepted(number, state)
}

/// The code that a member says in the round to come: 0 nothing, 1 or 2 the estimate 0 or 1, 3 or 4 decided 0 or 1. Refusal: 11.
pub fn say(state: &State) -> Result<u8, u8> {
    let mut code = 0;
    // SAFETY: the state's pointer is good for fourteen bytes and the code's for one, and they do not overlap.
    let number = unsafe { foreign::fcwfa_say(state.as_ptr(), &mut code) };
    accepted(number, code)
}

/// Hears the row of a round, a code for each process in order, the member's own included: see [`Member::hear`](crate::Member::hear).
/// Refusals: 11 to 17.
pub fn hear(state: &mut State, row: &[u8]) -> Result<(), u8> {
    // SAFETY: the state's pointer is good for fourteen bytes and the row's for its length; the state is lent by `&mut`, so they do not
    // overlap.
    let number = unsafe { foreign::fcwfa_hear(state.as_mut_ptr(), row.as_ptr(), row.len()) };
    accepted(number, ())
}

/// Runs a whole cluster to its end: see [`simulate`](crate::simulate). `decisions` gets 0, 1 or [`NO_DECISION`] for each process, and
/// `rounds` the round of it, 0 for none.
///
/// Refusals: 1, 2, 3 (all five tables are n long), 4, 5, 6 for each process in turn, 7.
pub fn simulate(
    n: usize,
    t: usize,
    votes: &[u8],
    crashes: &[u8],
    reaches: &[Set],
    decisions: &mut [u8],
    rounds: &mut [u8],
) -> Result<Counts, u8> {
    let mut counts = [0; 4];
    // SAFETY: each pointer is good for the length given with it and the last for four numbers; what is written is lent by `&mut`, so it
    // overlaps with nothing else.
    let number = unsafe {
        foreign::fcwfa_simulate(
            n,
            t,
            votes.as_ptr(),
            votes.len(),
            crashes.as_ptr(),
            crashes.len(),
            reaches.as_ptr(),
            reaches.len(),
            decisions.as_mut_ptr(),
            decisions.len(),
            rounds.as_mut_ptr(),
            rounds.len(),
            counts.as_mut_ptr(),
        )
    };
    accepted(number, Counts::of_table(counts))
}

/// Plays rounds until one in which some process decides: see [`outcome`](crate::outcome). `outcome` gets what is decided, 0 or 1, at
/// [`OUTCOME_DECISION`] and the round at [`OUTCOME_ROUND`].
///
/// Refusals: 1, 2, 3 (all three tables are n long), 4, 5, 6 for each process in turn, 7. `outcome` is then as it was.
pub fn outcome(
    n: usize,
    t: usize,
    votes: &[u8],
    crashes: &[u8],
    reaches: &[Set],
    outcome: &mut [u8; 2],
) -> Result<(), u8> {
    // SAFETY: each pointer is good for the length given with it and the last for two bytes; what is written is lent by `&mut`, so it
    // overlaps with nothing else.
    let number = unsafe {
        foreign::fcwfa_outcome(
            n,
            t,
            votes.as_ptr(),
            votes.len(),
            crashes.as_ptr(),
            crashes.len(),
            reaches.as_ptr(),
            reaches.len(),
            outcome.as_mut_ptr(),
        )
    };
    accepted(number, ())
}

/// Says why process `id`, from 1, decided as it did: see [`why`](crate::why). `why` gets what decided it at [`WHY_KIND`], and the number that
/// goes with it at [`WHY_NUMBER`].
///
/// Refusals: 1, 2, 3 (all three tables are n long), 4, 5, 6 for each process in turn, 7, 10 (`id` is not from 1 to n). `why` is then as it
/// was.
pub fn why(
    n: usize,
    t: usize,
    votes: &[u8],
    crashes: &[u8],
    reaches: &[Set],
    id: usize,
    why: &mut [usize; 2],
) -> Result<(), u8> {
    // SAFETY: each pointer is good for the length given with it and the last for two numbers; what is written is lent by `&mut`, so it
    // overlaps with nothing else.
    let number = unsafe {
        foreign::fcwfa_why(
            n,
            t,
            votes.as_ptr(),
            votes.len(),
            crashes.as_ptr(),
            crashes.len(),
            reaches.as_ptr(),
            reaches.len(),
            id,
            why.as_mut_ptr(),
        )
    };
    accepted(number, ())
}

/// Counts the crashes in a table of crash rounds, up to the one that is too many for t: see [`count_crashes`](crate::count_crashes).
///
/// Refusals: none, whatever t is and however long the table.
pub fn count_crashes(t: usize, crashes: &[u8]) -> Result<CrashCount, u8> {
    let mut counted = [0; 2];
    // SAFETY: the first pointer is good for the length given with it and the second for two numbers; what is written is this call's own,
    // so it overlaps with nothing else.
    let number = unsafe {
        foreign::fcwfa_count_crashes(t, crashes.as_ptr(), crashes.len(), counted.as_mut_ptr())
    };
    accepted(number, CrashCount::of_table(counted))
}

/// Writes the text of a schedule in tables, as [`simulate`] takes them, to the start of `text`, and its length to `used`: see
/// [`Schedule`](crate::Schedule). The bytes after the text keep their contents. A buffer of exactly the text's length is enough, and
/// [`LONGEST_WRITTEN`](crate::LONGEST_WRITTEN) bytes are enough for every text.
///
/// Refusals: 1, 2, 3 (all three tables are n long), 4, 5, 6 for each process in turn, 7, 18 (the buffer is too short for the whole text).
/// `text` and `used` are then as they were.
pub fn write_schedule(
    n: usize,
    t: usize,
    votes: &[u8],
    crashes: &[u8],
    reaches: &[Set],
    text: &mut [u8],
    used: &mut usize,
) -> Result<(), u8> {
    // SAFETY: each pointer is good for the length given with it and the last for one number; what is written is lent by `&mut`, so it
    // overlaps with nothing else.
    let number = unsafe {
        foreign::fcwfa_write_schedule(
            n,
            t,
            votes.as_ptr(),
            votes.len(),
            crashes.as_ptr(),
            crashes.len(),
            reaches.as_ptr(),
            reaches.len(),
            text.as_mut_ptr(),
            text.len(),
            used,
        )
    };
    accepted(number, ())
}

/// Reads the text of a schedule into tables of [`LARGEST`](crate::LARGEST) entries: see [`Schedule`](crate::Schedule). The first n entries
/// of each get what the text says, and those after them keep their contents. `read` gets n at [`READ_N`] and t at [`READ_T`], and is
/// as it was at [`READ_LINE`].
///
/// Refusals: 3 (all three tables have [`LARGEST`](crate::LARGEST) entries) and 8, both with line 0; then line by line 9, followed on line 2
/// by 1, 2 and on the line of a process by 4, 5, 6; 9 with line n + 4, if anything follows line n + 3; 7 with line n + 3. The line's number
/// is written to `read` at [`READ_LINE`]; its other two places and the tables are then as they were.
pub fn read_schedule(
    text: &[u8],
    votes: &mut [u8],
    crashes: &mut [u8],
    reaches: &mut [Set],
    read: &mut [usize; 3],
) -> Result<(), u8> {
    // SAFETY: each pointer is good for the length given with it and the last for three numbers; what is written is lent by `&mut`, so it
    // overlaps with nothing else.
    let number = unsafe {
        foreign::fcwfa_read_schedule(
            text.as_ptr(),
            text.len(),
            votes.as_mut_ptr(),
            votes.len(),
            crashes.as_mut_ptr(),
            crashes.len(),
            reaches.as_mut_ptr(),
            reaches.len(),
            read.as_mut_ptr(),
        )
    };
    accepted(number, ())
}

// A code and a vote are a byte each.
const _: () = assert!(size_of::<Code>() == 1 && size_of::<Vote>() == 1);

/// Codes as the bytes that stand for them, without a copy.
pub(crate) fn of_codes(codes: &[Code]) -> &[u8] {
    // SAFETY: a code is `repr(u8)`, so as many bytes stand there. They are lent as long as the codes, and only to be read.
    unsafe { from_raw_parts(codes.as_ptr().cast(), codes.len()) }
}

/// Votes as the bytes that stand for them, without a copy.
pub(crate) fn of_votes(votes: &[Vote]) -> &[u8] {
    // SAFETY: a vote is `repr(u8)`, so as many bytes stand there. They are lent as long as the votes, and only to be read.
    unsafe { from_raw_parts(votes.as_ptr().cast(), votes.len()) }
}
