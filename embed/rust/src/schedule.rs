//! A schedule that is accepted, and its text.

use std::fmt;
use std::str::{from_utf8, FromStr};

use crate::bytes::{self, READ_LINE, READ_N, READ_T};
use crate::{outcome, simulate, why, Outcome, Refusal, Report, Set, TextRefusal, Vote, Why};
use crate::{LARGEST, LONGEST_WRITTEN};

/// A schedule: who votes what, who crashes when, and whom the last message reaches. It was accepted when it was made, so it can always be
/// run and always has a text.
///
/// It parses from its text, a `str` or bytes, and displays as it. Both ways lead back: the text of a schedule parses as the same schedule,
/// and a text that parses displays as the same bytes. So two schedules are equal exactly if their texts are. A text has at most
/// [`LONGEST_WRITTEN`] bytes, all of them ASCII, and the last is the LF of its last line.
///
/// ```
/// use fcwfa::{Refusal, Schedule, TextRefusal, Vote};
///
/// # fn main() -> Result<(), Box<dyn std::error::Error>> {
/// // Process 1 of four crashes in round 1, and its message reaches process 2 only.
/// let schedule = Schedule::new(4, 3, &[Vote::Commit; 4], &[1, 0, 0, 0], &[0b0010, 0, 0, 0])?;
/// let text = "n t\n4 3\nid vote crash reach\n1 1 1 0100\n2 1 0 0000\n3 1 0 0000\n4 1 0 0000\n";
/// assert_eq!(schedule.to_string(), text);
///
/// // Both ways lead back.
/// assert_eq!(schedule.to_string().parse(), Ok(schedule.clone()));
/// assert_eq!(text.parse::<Schedule>()?.to_string(), text);
/// assert_eq!(Schedule::from_bytes(text.as_bytes())?, schedule);
///
/// // Without its last LF the last line is not of its form.
/// let refused = text.trim_end().parse::<Schedule>();
/// assert_eq!(refused, Err(TextRefusal { refusal: Refusal::Form, line: 7 }));
///
/// // It is accepted, so the run needs no questions.
/// assert_eq!(schedule.simulate().counts.messages, 37);
/// # Ok(())
/// # }
/// ```
#[derive(Clone, Debug, PartialEq, Eq, Hash)]
pub struct Schedule {
    t: usize,
    /// This and the other tables are n long.
    votes: Vec<Vote>,
    crashes: Vec<u8>,
    reaches: Vec<Set>,
}

impl Schedule {
    /// The schedule of a cluster of n, from 4 to [`LARGEST`], that bears t crashes. Entry i - 1 of each table is process i's: its vote; its
    /// crash round, 0 (never) or 1 to t + 1; and its reach, the [`Set`] of processes that still get the message of the crash round.
    ///
    /// Refusals, as [`simulate`] has them: [`Refusal::N`], [`Refusal::T`], [`Refusal::Length`], then for each process in turn
    /// [`Refusal::Crash`] and [`Refusal::Reach`], and last [`Refusal::Crashes`].
    pub fn new(
        n: usize,
        t: usize,
        votes: &[Vote],
        crashes: &[u8],
        reaches: &[Set],
    ) -> Result<Schedule, Refusal> {
        // The library asks its questions where it writes the text; what it writes is not needed here.
        let (mut text, mut used) = ([0; LONGEST_WRITTEN], 0);
        let bare = bytes::of_votes(votes);
        bytes::write_schedule(n, t, bare, crashes, reaches, &mut text, &mut used)
            .map_err(Refusal::answered)?;
        Ok(Schedule {
            t,
            votes: votes.to_vec(),
            crashes: crashes.to_vec(),
            reaches: reaches.to_vec(),
        })
    }

    /// The schedule whose text these bytes are.
    ///
    /// Refusals, each with its line: [`Refusal::TextLength`], line 0; then line by line [`Refusal::Form`], followed on line 2 by
    /// [`Refusal::N`] and [`Refusal::T`], and on the line of a process by [`Refusal::Vote`], [`Refusal::Crash`] and [`Refusal::Reach`]; then
    /// [`Refusal::Form`], line n + 4, if anything follows line n + 3; and last [`Refusal::Crashes`], line n + 3.
    pub fn from_bytes(text: &[u8]) -> Result<Schedule, TextRefusal> {
        let (mut votes, mut crashes, mut reaches) = ([0; LARGEST], [0; LARGEST], [0; LARGEST]);
        let mut read = [0; 3];
        let answer = bytes::read_schedule(text, &mut votes, &mut crashes, &mut reaches, &mut read);
        answer.map_err(|number| TextRefusal {
            refusal: Refusal::answered(number),
            line: read[READ_LINE],
        })?;
        let n = read[READ_N];
        Ok(Schedule {
            t: read[READ_T],
            votes: votes[..n].iter().copied().map(Vote::answered).collect(),
            crashes: crashes[..n].to_vec(),
            reaches: reaches[..n].to_vec(),
        })
    }

    /// The number of processes.
    pub fn n(&self) -> usize {
        self.votes.len()
    }

    /// The number of crashes to bear.
    pub fn t(&self) -> usize {
        self.t
    }

    /// What each process votes, process i at place i - 1.
    pub fn votes(&self) -> &[Vote] {
        &self.votes
    }

    /// In which round each process crashes, 0 for never, process i at place i - 1.
    pub fn crashes(&self) -> &[u8] {
        &self.crashes
    }

    /// Who still gets the message of each process's crash round, process i's reach at place i - 1.
    /// [`Processes`](crate::Processes) tells whom a reach names.
    pub fn reaches(&self) -> &[Set] {
        &self.reaches
    }

    /// Runs the cluster to its end: what [`simulate`] reports of these tables. Nothing is refused.
    pub fn simulate(&self) -> Report {
        let (n, t) = (self.n(), self.t);
        simulate(n, t, &self.votes, &self.crashes, &self.reaches)
            .unwrap_or_else(|refusal| unaccepted(refusal.number()))
    }

    /// Plays rounds until one in which some process decides: what [`outcome`] answers of these tables. Nothing is refused.
    ///
    /// ```
    /// use fcwfa::{Decision, Schedule, TextRefusal};
    ///
    /// # fn main() -> Result<(), TextRefusal> {
    /// let text = "n t\n4 3\nid vote crash reach\n1 1 1 0100\n2 1 0 0000\n3 1 0 0000\n4 1 0 0000\n";
    /// let outcome = text.parse::<Schedule>()?.outcome();
    /// assert_eq!((outcome.decision, outcome.round), (Decision::Abort, 3));
    /// # Ok(())
    /// # }
    /// ```
    pub fn outcome(&self) -> Outcome {
        let (n, t) = (self.n(), self.t);
        outcome(n, t, &self.votes, &self.crashes, &self.reaches)
            .unwrap_or_else(|refusal| unaccepted(refusal.number()))
    }

    /// Says why process `id`, from 1 to n, decided as it did: what [`why`] answers of these tables. [`Refusal::Id`] is the only refusal.
    ///
    /// ```
    /// use fcwfa::{Refusal, Schedule, Why};
    ///
    /// # fn main() -> Result<(), Box<dyn std::error::Error>> {
    /// let text = "n t\n4 3\nid vote crash reach\n1 1 1 0100\n2 1 0 0000\n3 1 0 0000\n4 1 0 0000\n";
    /// let schedule: Schedule = text.parse()?;
    /// assert_eq!(schedule.why(1)?.to_string(), "crashed in round 1");
    /// assert_eq!(schedule.why(2)?, Why::RoundT { estimates: 3 });
    /// assert_eq!(schedule.why(5), Err(Refusal::Id));
    /// # Ok(())
    /// # }
    /// ```
    pub fn why(&self, id: usize) -> Result<Why, Refusal> {
        let (n, t) = (self.n(), self.t);
        let answer = why(n, t, &self.votes, &self.crashes, &self.reaches, id);
        answer.map_err(|refusal| match refusal {
            Refusal::Id => refusal,
            _ => unaccepted(refusal.number()),
        })
    }
}

impl fmt::Display for Schedule {
    /// Writes the text. Width and the like are not heeded: the text has one form.
    fn fmt(&self, f: &mut fmt::Formatter<'_>) -> fmt::Result {
        let (mut text, mut used) = ([0; LONGEST_WRITTEN], 0);
        let (n, votes) = (self.n(), bytes::of_votes(&self.votes));
        let (crashes, reaches) = (&self.crashes, &self.reaches);
        bytes::write_schedule(n, self.t, votes, crashes, reaches, &mut text, &mut used)
            .unwrap_or_else(|number| unaccepted(number));
        f.write_str(from_utf8(&text[..used]).expect("the text of a schedule is ASCII"))
    }
}

impl TryFrom<&[u8]> for Schedule {
    type Error = TextRefusal;

    /// The schedule of a text, as [`Schedule::from_bytes`].
    fn try_from(text: &[u8]) -> Result<Schedule, TextRefusal> {
        Schedule::from_bytes(text)
    }
}

impl FromStr for Schedule {
    type Err = TextRefusal;

    /// The schedule of a text, as [`Schedule::from_bytes`].
    fn from_str(text: &str) -> Result<Schedule, TextRefusal> {
        Schedule::from_bytes(text.as_bytes())
    }
}

/// Ends the program: the library refused a schedule that it had accepted.
#[cold]
fn unaccepted(number: u8) -> ! {
    panic!("the library refused an accepted schedule with {number}")
}
