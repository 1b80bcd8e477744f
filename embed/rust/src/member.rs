//! One process of a transaction.

use crate::bytes::{self, State};
use crate::{Code, Decided, Decision, Processes, Refusal, Set, Vote};

/// A member: one process of a transaction. It was opened, or read from bytes that are a state, and has heard rows since, so it is always in
/// range, and what it shows can be believed.
#[derive(Clone, Copy, Debug, PartialEq, Eq, Hash)]
pub struct Member {
    state: State,
}

impl Member {
    /// A new member `id`, from 1, of a cluster of n, from 4 to [`LARGEST`](crate::LARGEST), that bears t crashes, with its vote.
    ///
    /// Refusals: [`Refusal::N`], [`Refusal::T`], [`Refusal::Id`].
    pub fn open(n: usize, t: usize, id: usize, vote: Vote) -> Result<Member, Refusal> {
        let state = bytes::open(n, t, id, vote.into()).map_err(Refusal::answered)?;
        Ok(Member { state })
    }

    /// The member whose state these bytes are: n, t, own number, the round to play next, the estimate and the decided round, a byte each,
    /// and the silent set as eight bytes, lowest first.
    ///
    /// It is for inspection: a process that was down has crashed and must not go on from it. That the bytes are in range does not show that
    /// they are the right ones.
    ///
    /// Refusal: [`Refusal::State`], exactly if the bytes are not a state in range.
    pub fn from_bytes(state: [u8; 14]) -> Result<Member, Refusal> {
        bytes::say(&state).map_err(Refusal::answered)?;
        Ok(Member { state })
    }

    /// The member's state, to be stored or sent for inspection.
    pub fn to_bytes(&self) -> [u8; 14] {
        self.state
    }

    /// What the member says in the round to come; [`Code::Nothing`] if it has stopped.
    pub fn say(&self) -> Code {
        match bytes::say(&self.state) {
            Ok(code) => Code::answered(code),
            Err(number) => panic!("the library refused a member in range with {number}"),
        }
    }

    /// Hears the row of a round, a code for each process in order, the member's own included. A [`Code::Nothing`] stands for a process that
    /// has crashed without completing this round, or has stopped, and for no other: never for a message that is late or lost. See the
    /// contract at the top of this crate, (a) and (b).
    ///
    /// Refusals: [`Refusal::Stopped`], [`Refusal::RowLength`], [`Refusal::OwnPlace`], [`Refusal::Early`], [`Refusal::Both`]; the member is
    /// then as it was. Never repair a row to get past one; (d) says what each shows.
    pub fn hear(&mut self, row: &[Code]) -> Result<(), Refusal> {
        bytes::hear(&mut self.state, bytes::of_codes(row)).map_err(Refusal::answered)
    }

    /// The number of processes.
    pub fn n(&self) -> usize {
        self.state[0].into()
    }

    /// The number of crashes to bear.
    pub fn t(&self) -> usize {
        self.state[1].into()
    }

    /// The member's own number, from 1.
    pub fn id(&self) -> usize {
        self.state[2].into()
    }

    /// The round to play next.
    pub fn round(&self) -> usize {
        self.state[3].into()
    }

    /// The estimate: the decision, once there is one.
    pub fn estimate(&self) -> Decision {
        Decision::answered(self.state[4])
    }

    /// The decision and its round, once there is one. It is final.
    pub fn decision(&self) -> Option<Decided> {
        match self.state[5] {
            0 => None,
            round => Some(Decided {
                decision: self.estimate(),
                round: round.into(),
            }),
        }
    }

    /// The silent set: the processes that sent no estimate in the last row that set it. It is the set behind the quiet-round rule: in round r,
    /// from 2 to t - 1, the member decides if at most r - 2 processes are silent.
    ///
    /// It is empty at opening. A row sets it if it is heard while undecided, from round 2 on, and no decided message stands in it, also if the
    /// member decides by this row. Every other row leaves it: that of round 1, one with a decided message, and all that a decided member
    /// hears.
    ///
    /// If (a) of the contract holds, it names each process that crashed before the round of that row, and nobody who did not crash by then. It
    /// does not say:
    ///
    /// - who has crashed since: it is of that row, and not of now;
    /// - that a process is alive: one that crashed in the round of that row is named only if its message did not come to this member;
    /// - who has stopped: nobody is named for that.
    ///
    /// If (a) is broken, it says whose estimate was missing, and nothing of crashes. "The silent set" in `embed/README.md` says of which
    /// round it is.
    ///
    /// ```
    /// use fcwfa::{Code, Member, Refusal, Vote};
    ///
    /// fn main() -> Result<(), Refusal> {
    ///     let mut member = Member::open(5, 4, 2, Vote::Commit)?;
    ///     let mut row = [Code::EstimateCommit; 5];
    ///     member.hear(&row)?;
    ///     // In round 2 nothing comes from processes 1 and 4: they have crashed.
    ///     row[0] = Code::Nothing;
    ///     row[3] = Code::Nothing;
    ///     member.hear(&row)?;
    ///     assert_eq!(member.silent().to_string(), "{1, 4}");
    ///     assert!(member.silent().iter().eq([1, 4]));
    ///     Ok(())
    /// }
    /// ```
    pub fn silent(&self) -> Processes {
        let [_, _, _, _, _, _, silent @ ..] = self.state;
        Set::from_le_bytes(silent).into()
    }

    /// Whether the member has stopped: it has decided, and says and hears nothing more.
    pub fn is_stopped(&self) -> bool {
        self.say() == Code::Nothing
    }
}
