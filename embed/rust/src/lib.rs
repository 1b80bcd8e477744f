//! One process of FCWFA, the fast-commit, weakly fast-abort atomic commit protocol, the simulator of a whole cluster, and the texts of its
//! schedules.
//!
//! The work is done by the proved functions of `libfcwfa_member.a`, `libfcwfa_simulator.a`, `libfcwfa_outcome.a`, `libfcwfa_why.a` and
//! `libfcwfa_texts.a`; this crate only gives their numbers types and lends them slices. A call does its work, or answers a [`Refusal`] and
//! leaves everything it was lent as it was. Every type says which numbers it stands for; they are those of `embed/fcwfa.h`. The module
//! [`bytes`] has the same calls on the bare numbers.
//!
//! [`Member`] is one process, [`simulate`] runs a whole cluster, [`outcome`] says commit or abort without the whole run, [`why`] names the
//! rule that decided a process, and a [`Schedule`] is what a cluster is run by: it parses from the text that the program `bench` reads, and
//! displays as it.
//!
//! Four members vote to commit, every message arrives, and all of them commit in round 2:
//!
//! ```
//! use fcwfa::{Code, Decided, Decision, Member, Refusal, Vote};
//!
//! fn main() -> Result<(), Refusal> {
//!     let mut members = Vec::new();
//!     for id in 1..=4 {
//!         members.push(Member::open(4, 3, id, Vote::Commit)?);
//!     }
//!     while !members.iter().all(Member::is_stopped) {
//!         let row: Vec<Code> = members.iter().map(Member::say).collect();
//!         for member in members.iter_mut().filter(|member| !member.is_stopped()) {
//!             member.hear(&row)?;
//!         }
//!     }
//!     let committed = Decided { decision: Decision::Commit, round: 2 };
//!     assert!(members.iter().all(|member| member.decision() == Some(committed)));
//!     Ok(())
//! }
//! ```
//!
//! # The contract
//!
//! The calls are safe whatever they are given. That members agree is proved for every run in which (a) holds and the calls are made as in
//! (b), and for no other; whether (a) holds no call can tell. `embed/README.md` has the contract whole; in short:
//!
//! **(a) The network and the clock.** Rounds are in lockstep. If a process completes a round (hears its row), its message of that round
//! arrives in that round, unchanged, at every process that completes it. A process that has not stopped and does not complete a round has
//! crashed: it takes no further part and never comes back under its number in this transaction. At most t crash. So a [`Code::Nothing`] in
//! a row says that the process at that place has crashed without completing this round, or that it said "decided" in an earlier round and
//! has stopped. It never stands for a message that is late or lost: `tests/outside_the_contract.rs` has a run in which two members then
//! commit and two abort, and no call is refused.
//!
//! **(b) The loop of a round.** [`Member::say`], and leave the loop at [`Code::Nothing`]: the member has stopped. Send the code to all.
//! Wait until the message of each other process has come, or it is certain that its sender crashed before it completed this round, or it
//! stopped. [`Member::hear`] the row. A [`Member::decision`] is final; go on with the loop, for the others must hear of it in the next
//! round.
//!
//! **(c) A state on disk** ([`Member::to_bytes`], [`Member::from_bytes`]) is for inspection. Going on from it after a restart is outside of
//! what is promised: that process has crashed. So is playing two copies of a member. [`Member::silent`] says who was silent in the last row
//! that set it, not who is down now.
//!
//! **(d) After a refusal** the member is as it was, and a decision that was made before stands. [`Refusal::State`] (the bytes are no state
//! of a member), [`Refusal::Stopped`] (it needs no more rows), [`Refusal::RowLength`] and [`Refusal::OwnPlace`] (the row was put together
//! wrongly) are the caller's faults, and so is [`Refusal::Code`] (a byte is no code) unless the byte came so over the wire. That,
//! [`Refusal::Early`] and [`Refusal::Both`] show that (a) is broken or a member is faulty; agreement is then not promised for this
//! transaction. Never invent or repair a row: put no [`Code::Nothing`] for a byte that is no code. A member that cannot go on counts as
//! crashed for the rest of the transaction: it sends nothing more, hears no more rows and does not decide by itself.
#![warn(missing_docs)]
// `bytes` alone may be unsafe.
#![deny(unsafe_code)]

pub mod bytes;
mod crashes;
mod member;
mod processes;
mod refusal;
mod rules;
mod schedule;
mod simulator;
mod values;

pub use crashes::{count_crashes, CrashCount};
pub use member::Member;
pub use processes::{ProcessNumbers, Processes};
pub use refusal::{Refusal, TextRefusal};
pub use rules::{why, Why};
pub use schedule::Schedule;
pub use simulator::{outcome, simulate, Counts, Outcome, Report};
pub use values::{Code, Decided, Decision, Vote};

/// The largest number of processes.
pub const LARGEST: usize = 64;

/// The longest text of a schedule that is read, in bytes. A longer one is refused with [`Refusal::TextLength`].
pub const LONGEST_TEXT: usize = 8192;

/// The longest text of a schedule that is written, in bytes. No accepted schedule has a longer one, so a buffer of this length is never
/// refused with [`Refusal::Buffer`], and [`bytes::read_schedule`] accepts no longer text.
pub const LONGEST_WRITTEN: usize = 4692;

/// A set of processes as a number, such as a reach; bit j - 1 stands for process j. [`Processes`] tells whom it names.
pub type Set = u64;

// A set has a bit for each process.
const _: () = assert!(LARGEST <= Set::BITS as usize);
