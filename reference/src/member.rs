//! One member's machine (document 01, "One member", and the member's part of "Questions before work"; document 02, K7:
//! the set of silent processes).

use crate::questions::{ask, ask_sizes, ask_vote, Refusal};
use crate::schedule::{bit, everyone};
use crate::Set;

/// The codes of a row.
pub const NOTHING: u8 = 0;
/// "estimate" with 0.
pub const ESTIMATE_0: u8 = 1;
/// "estimate" with 1.
pub const ESTIMATE_1: u8 = 2;
/// "decided" with 0.
pub const DECIDED_0: u8 = 3;
/// "decided" with 1.
pub const DECIDED_1: u8 = 4;

/// The length of a state in bytes: six numbers of one byte each, then the set as eight bytes.
pub const STATE_BYTES: usize = 14;

/// The place of the set's first byte, counted from 0.
const SET_AT: usize = 6;

/// The state of a member: six numbers and a set. A value of this type need not be in range.
#[derive(Clone, Copy, Debug, PartialEq, Eq)]
pub struct Member {
    /// The number of processes.
    pub n: usize,
    /// The largest number of crashes.
    pub t: usize,
    /// The member's own number.
    pub own: usize,
    /// The round to play next.
    pub round: usize,
    /// The estimate, 0 or 1; once decided, the decision.
    pub estimate: u8,
    /// The decided round, 0 while undecided.
    pub decided: usize,
    /// The silent processes: those that sent no estimate in the last row that set it; nobody at opening.
    pub silent: Set,
}

/// How often a code stands in a row.
pub fn count(row: &[u8], code: u8) -> usize {
    row.iter().filter(|heard| **heard == code).count()
}

/// Whether code 3 or 4 stands in a row.
pub fn has_decided(row: &[u8]) -> bool {
    row.contains(&DECIDED_0) || row.contains(&DECIDED_1)
}

/// The processes that sent no estimate: those whose code in a row is neither 1 nor 2.
pub fn silent_in(row: &[u8]) -> Set {
    let estimate = |code: u8| code == ESTIMATE_0 || code == ESTIMATE_1;
    let silent = (1..).zip(row).filter(|(_, code)| !estimate(**code));
    silent.fold(0, |set, (i, _)| set | bit(i))
}

impl Member {
    /// Opening: round 1, estimate = vote, undecided, and the set is empty; refused by 1, 2, 10, 4.
    pub fn open(n: usize, t: usize, own: usize, vote: u8) -> Result<Member, Refusal> {
        ask_sizes(n, t)?;
        ask((1..=n).contains(&own), Refusal::OwnNumber)?;
        ask_vote(vote)?;
        Ok(Member {
            n,
            t,
            own,
            round: 1,
            estimate: vote,
            decided: 0,
            silent: 0,
        })
    }

    /// The state that these bytes are: the six numbers in the order of the fields, then the set, its lowest byte first.
    pub fn from_bytes(bytes: [u8; STATE_BYTES]) -> Member {
        let [n, t, own, round, estimate, decided, set @ ..] = bytes;
        Member {
            n: usize::from(n),
            t: usize::from(t),
            own: usize::from(own),
            round: usize::from(round),
            estimate,
            decided: usize::from(decided),
            silent: Set::from_le_bytes(set),
        }
    }

    /// The state as bytes; one in range fits.
    pub fn to_bytes(self) -> [u8; STATE_BYTES] {
        let byte = |number: usize| u8::try_from(number).expect("the number fits a byte");
        let numbers = [
            byte(self.n),
            byte(self.t),
            byte(self.own),
            byte(self.round),
            self.estimate,
            byte(self.decided),
        ];
        let mut bytes = [0; STATE_BYTES];
        bytes[..SET_AT].copy_from_slice(&numbers);
        bytes[SET_AT..].copy_from_slice(&self.silent.to_le_bytes());
        bytes
    }

    /// Saying: the code of what the member says; refused by 11.
    pub fn say(&self) -> Result<u8, Refusal> {
        ask(self.in_range(), Refusal::State)?;
        Ok(self.says())
    }

    /// Hearing: the state after the row; refused by 11 to 17, and the caller keeps the state given.
    pub fn hear(&self, row: &[u8]) -> Result<Member, Refusal> {
        ask(self.in_range(), Refusal::State)?;
        ask(!self.stopped(), Refusal::Stopped)?;
        ask(row.len() == self.n, Refusal::RowLength)?;
        ask(row.iter().all(|code| *code <= DECIDED_1), Refusal::Code)?;
        ask(row[self.own - 1] == self.says(), Refusal::OwnPlace)?;
        ask(self.round > 2 || !has_decided(row), Refusal::EarlyDecided)?;
        let both = row.contains(&DECIDED_0) && row.contains(&DECIDED_1);
        ask(!both, Refusal::BothDecided)?;
        Ok(self.after(row))
    }

    /// Whether the state is in range.
    pub fn in_range(&self) -> bool {
        let limits = ask_sizes(self.n, self.t).is_ok()
            && (1..=self.n).contains(&self.own)
            && self.estimate <= 1;
        limits && self.rounds_in_range() && self.silent_in_range()
    }

    /// The rounds' part of "in range"; n and t are in their limits.
    fn rounds_in_range(&self) -> bool {
        let last = self.t + 1;
        match self.decided {
            0 => (1..=last).contains(&self.round),
            d => {
                (2..=last).contains(&d)
                    && (self.round == d + 1 || self.round == d + 2)
                    && self.round <= self.t + 2
            }
        }
    }

    /// The set's part of "in range"; n and the own number are in their limits. Document 02, K7: "it names only
    /// processes 1 to n and not the own number."
    fn silent_in_range(&self) -> bool {
        let others = everyone(self.n) & !bit(self.own);
        self.silent & !others == 0
    }

    /// Whether the member is stopped: round t + 2, or decided in d with round d + 2.
    pub fn stopped(&self) -> bool {
        self.round == self.t + 2 || (self.decided != 0 && self.round == self.decided + 2)
    }

    /// The code of what a member says, without the question before it.
    pub fn says(&self) -> u8 {
        if self.stopped() {
            return NOTHING;
        }
        match (self.decided != 0, self.estimate) {
            (false, 0) => ESTIMATE_0,
            (false, _) => ESTIMATE_1,
            (true, 0) => DECIDED_0,
            (true, _) => DECIDED_1,
        }
    }

    /// What hearing a row does, without the questions before it. Document 02, K7: "A row heard while undecided from
    /// round 2 on, without a decided message, makes it the processes that sent no estimate. Every other row leaves it."
    pub fn after(&self, row: &[u8]) -> Member {
        let mut next = *self;
        next.round += 1;
        if self.decided != 0 {
            return next;
        }
        if self.round == 1 {
            let estimates = count(row, ESTIMATE_0) + count(row, ESTIMATE_1);
            if estimates < self.n || row.contains(&ESTIMATE_0) {
                next.estimate = 0;
            }
        } else if has_decided(row) {
            next.estimate = u8::from(row.contains(&DECIDED_1));
            next.decided = self.round;
        } else {
            if row.contains(&ESTIMATE_0) {
                next.estimate = 0;
            }
            if self.decides(row) {
                next.decided = self.round;
            }
            next.silent = silent_in(row);
        }
        next
    }

    /// Whether an undecided member decides in its round r, 2 or later, on a row without codes 3 and 4: r = 2 and all
    /// estimates heard are 0; r at most t - 1 and at most r - 2 processes sent no estimate; r = t and at least
    /// n - t + 1 estimates; r = t + 1. Whichever holds, it decides its estimate.
    fn decides(&self, row: &[u8]) -> bool {
        let (n, t, r) = (self.n, self.t, self.round);
        let zeros = count(row, ESTIMATE_0);
        let estimates = zeros + count(row, ESTIMATE_1);
        let silent = n - estimates;
        (r == 2 && zeros == estimates)
            || (r < t && silent <= r - 2)
            || (r == t && estimates > n - t)
            || r == t + 1
    }
}
