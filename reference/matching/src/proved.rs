//! The proved bench and members, called in-process on bare bytes and numbers, so that anything can be passed.

use fcwfa::bytes;
use reference::crashes::CrashCount;
use reference::run::Counts;
use reference::schedule::Schedule;

use crate::members::{Machine, State};
use crate::outcomes::Lent;
use crate::reads::{Numbers, Tables};
use crate::whys;

// The libraries and the reference take the same clusters. Their sets have the same type, or no reach could be passed.
const _: () = assert!(fcwfa::LARGEST == reference::LARGEST);

/// The call on tables.
pub fn simulate(
    schedule: &Schedule,
    decisions: &mut [u8],
    rounds: &mut [u8],
) -> Result<Counts, u8> {
    let counts = bytes::simulate(
        schedule.n,
        schedule.t,
        &schedule.votes,
        &schedule.crashes,
        &schedule.reaches,
        decisions,
        rounds,
    )?;
    Ok(Counts {
        f: counts.f,
        first: counts.first,
        last: counts.last,
        messages: counts.messages,
    })
}

/// The call for the outcome.
pub fn outcome(schedule: &Schedule, lent: &mut Lent) -> Result<(), u8> {
    bytes::outcome(
        schedule.n,
        schedule.t,
        &schedule.votes,
        &schedule.crashes,
        &schedule.reaches,
        lent,
    )
}

/// The call for why a process decided.
pub fn why(schedule: &Schedule, id: usize, lent: &mut whys::Lent) -> Result<(), u8> {
    bytes::why(
        schedule.n,
        schedule.t,
        &schedule.votes,
        &schedule.crashes,
        &schedule.reaches,
        id,
        lent,
    )
}

/// The count of crashes.
pub fn count_crashes(t: usize, crashes: &[u8]) -> Result<CrashCount, u8> {
    let counted = bytes::count_crashes(t, crashes)?;
    Ok(CrashCount {
        count: counted.count,
        looked_at: counted.looked_at,
    })
}

/// The writer of a schedule's text.
pub fn write_schedule(schedule: &Schedule, buffer: &mut [u8], used: &mut usize) -> Result<(), u8> {
    bytes::write_schedule(
        schedule.n,
        schedule.t,
        &schedule.votes,
        &schedule.crashes,
        &schedule.reaches,
        buffer,
        used,
    )
}

/// The reader of a text.
pub fn read_schedule(text: &[u8], tables: &mut Tables, numbers: &mut Numbers) -> Result<(), u8> {
    bytes::read_schedule(
        text,
        &mut tables.votes,
        &mut tables.crashes,
        &mut tables.reaches,
        numbers,
    )
}

/// The member's machine.
pub struct Proved;

impl Machine for Proved {
    fn open(&self, n: usize, t: usize, own: usize, vote: u8) -> Result<State, u8> {
        bytes::open(n, t, own, vote)
    }

    fn say(&self, state: &State) -> Result<u8, u8> {
        bytes::say(state)
    }

    fn hear(&self, state: &mut State, row: &[u8]) -> Result<(), u8> {
        bytes::hear(state, row)
    }
}
