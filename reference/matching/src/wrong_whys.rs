//! Wrong answers to why a process decided that document 02's K9 invites: wrong rules and numbers, lent numbers that are
//! written or kept wrongly, questions that are asked wrongly, and wrong lines.

use reference::crashes::count_crashes;
use reference::member::{count, Member, DECIDED_0, ESTIMATE_1, NOTHING};
use reference::questions::Refusal;
use reference::report::{self, refusal};
use reference::run::{play_heard, Hearing, Run};
use reference::schedule::{everyone, Schedule};
use reference::so_far::crashes_by;
use reference::text::{line, read, Refused};
use reference::why::{answer, first_met, heard_in, lines, of_run, Why, HEADING, WORDS};
use reference::{outcome, LARGEST};

use crate::limits::{Cut, Refuse};
use crate::whys::{by_reference, Lent};
use crate::wrong::Hear;

/// A process of an accepted schedule with the finished run and its hearings.
#[derive(Clone, Copy)]
pub struct Process<'a> {
    schedule: &'a Schedule,
    run: &'a Run,
    hearings: &'a [Hearing],
    i: usize,
}

impl<'a> Process<'a> {
    /// The right answer.
    fn right(&self) -> Why {
        of_run(self.schedule, self.run, self.hearings, self.i)
    }

    /// Its decided round, 0 for none.
    fn decided(&self) -> usize {
        usize::from(self.run.rounds[self.i - 1])
    }

    /// What it hears in its decided round; none without a decision.
    fn hearing(&self) -> Option<&'a Hearing> {
        heard_in(self.hearings, self.i, self.decided())
    }

    /// The same of another process.
    fn of(&self, i: usize) -> Process<'a> {
        Process { i, ..*self }
    }

    /// The right answer, but for its number where it has one of this kind: that is made of the row and the right number.
    fn number(&self, kind: usize, change: impl Fn(&Process, &[u8], usize) -> usize) -> Why {
        let right = self.right();
        let row = self.hearing().map_or(&[][..], |hearing| &hearing.row);
        match right {
            _ if right.numbers()[0] != kind => right,
            Why::Crashed { round } => Why::Crashed {
                round: change(self, row, round),
            },
            Why::Told { sender } => Why::Told {
                sender: change(self, row, sender),
            },
            Why::Quiet { missing } => Why::Quiet {
                missing: change(self, row, missing),
            },
            Why::RoundT { estimates } => Why::RoundT {
                estimates: change(self, row, estimates),
            },
            Why::ZerosOnly | Why::LastRound => right,
        }
    }

    /// The right answer, or another one that is made of what it heard in its decided round; none of it leaves the right
    /// one.
    fn rule(&self, other: impl Fn(&Process, &Hearing) -> Option<Why>) -> Why {
        let hearing = self.hearing();
        let other = hearing.and_then(|hearing| other(self, hearing));
        other.unwrap_or_else(|| self.right())
    }
}

/// A way of taking the answer for a process.
pub type WhyBy = fn(Process) -> Why;

/// The places of the kinds with a number.
const CRASHED: usize = 0;
const TOLD: usize = 1;
const QUIET: usize = 3;
const ROUND_T: usize = 4;

/// How many estimates stand in a row, and how many processes sent none.
fn estimates(row: &[u8]) -> usize {
    row.iter().filter(|code| matches!(code, 1 | 2)).count()
}

fn missing(row: &[u8]) -> usize {
    row.len() - estimates(row)
}

/// The numbers of those whose code in a row is as given.
fn senders(row: &[u8], is: impl Fn(u8) -> bool) -> Vec<usize> {
    let is_so = (1..).zip(row).filter(|(_, code)| is(**code));
    is_so.map(|(i, _)| i).collect()
}

fn decided_senders(row: &[u8]) -> Vec<usize> {
    senders(row, |code| code >= DECIDED_0)
}

/// Wrong rules and numbers that show with n = 4 and t = 3, too.
pub const TAKES: [(&str, WhyBy); 33] = [
    ("the highest sender", |p| {
        p.number(TOLD, |_, row, right| {
            decided_senders(row).last().copied().unwrap_or(right)
        })
    }),
    ("the sender as a place counted from 0", |p| {
        p.number(TOLD, |_, _, right| right - 1)
    }),
    ("the lowest sender of any message", |p| {
        p.number(TOLD, |_, row, right| {
            let any = senders(row, |code| code != NOTHING);
            any.first().copied().unwrap_or(right)
        })
    }),
    ("the lowest that decided a round before, unheard", |p| {
        p.number(TOLD, |p, _, right| before(p).unwrap_or(right))
    }),
    ("told if anyone decided a round before, unheard", |p| {
        let sender = before(&p);
        sender.map_or(p.right(), |sender| Why::Told { sender })
    }),
    ("the first decider for the sender", |p| {
        p.number(TOLD, |p, _, _| p.run.counts.first)
    }),
    ("the number of decided messages for the sender", |p| {
        p.number(TOLD, |_, row, _| decided_senders(row).len())
    }),
    ("the own number for the sender", |p| {
        p.number(TOLD, |p, _, _| p.i)
    }),
    ("the value that was told for the sender", |p| {
        p.number(TOLD, |p, _, _| usize::from(p.run.decisions[p.i - 1]))
    }),
    ("told taken for the last round", |p| {
        p.rule(|_, hearing| {
            let told = !decided_senders(&hearing.row).is_empty();
            told.then_some(Why::LastRound)
        })
    }),
    ("decided messages not looked at", |p| {
        p.rule(|_, hearing| {
            let blind = |code: &u8| if *code < DECIDED_0 { *code } else { NOTHING };
            let row: Vec<u8> = hearing.row.iter().map(blind).collect();
            first_met(&hearing.before, &row)
        })
    }),
    ("quiet named before zeros", |p| {
        p.rule(|p, hearing| {
            let zeros = p.right() == Why::ZerosOnly;
            let missing = missing(&hearing.row);
            (zeros && missing == 0).then_some(Why::Quiet { missing })
        })
    }),
    ("zeros named where some are missing as quiet", |p| {
        p.rule(|p, hearing| {
            let zeros = p.right() == Why::ZerosOnly;
            let missing = missing(&hearing.row);
            (zeros && missing != 0).then_some(Why::Quiet { missing })
        })
    }),
    ("zeros named for every decision of round 2", |p| {
        p.rule(|p, _| (p.decided() == 2).then_some(Why::ZerosOnly))
    }),
    ("zeros named in every round", |p| {
        p.rule(|_, hearing| {
            let told = !decided_senders(&hearing.row).is_empty();
            let zeros = !told && !hearing.row.contains(&ESTIMATE_1);
            zeros.then_some(Why::ZerosOnly)
        })
    }),
    ("the round's number for the missing ones", |p| {
        p.number(QUIET, |p, _, _| p.decided())
    }),
    ("the crashes so far for the missing ones", |p| {
        p.number(QUIET, |p, _, _| {
            crashes_by(&p.schedule.crashes, p.decided())
        })
    }),
    ("estimates where missing are due", |p| {
        p.number(QUIET, |_, row, _| estimates(row))
    }),
    ("the own estimate taken for a missing one", |p| {
        p.number(QUIET, |_, _, right| right + 1)
    }),
    ("missing where estimates are due", |p| {
        p.number(ROUND_T, |_, row, _| missing(row))
    }),
    ("the own estimate not counted in round t", |p| {
        p.number(ROUND_T, |_, _, right| right - 1)
    }),
    ("the estimates of 1 alone counted in round t", |p| {
        p.number(ROUND_T, |_, row, _| count(row, ESTIMATE_1))
    }),
    ("the least number of estimates in round t", |p| {
        p.number(ROUND_T, |p, _, _| p.schedule.n - p.schedule.t + 1)
    }),
    ("the round's number for the estimates", |p| {
        p.number(ROUND_T, |p, _, _| p.schedule.t)
    }),
    ("quiet named in round t, too", |p| {
        p.rule(|_, hearing| {
            let (row, t) = (&hearing.row, hearing.before.t);
            let missing = missing(row);
            let quiet = hearing.round == t && decided_senders(row).is_empty();
            (quiet && missing <= t - 2).then_some(Why::Quiet { missing })
        })
    }),
    ("round t named for a quiet round", |p| {
        p.rule(|p, hearing| {
            let quiet = matches!(p.right(), Why::Quiet { .. });
            let estimates = estimates(&hearing.row);
            quiet.then_some(Why::RoundT { estimates })
        })
    }),
    ("round t named in the last round", |p| {
        p.rule(|p, hearing| {
            let last = p.right() == Why::LastRound;
            let estimates = estimates(&hearing.row);
            last.then_some(Why::RoundT { estimates })
        })
    }),
    ("the row of the round before", |p| {
        p.rule(|p, hearing| {
            let before = heard_in(p.hearings, p.i, hearing.round - 1)?;
            let met = first_met(&hearing.before, &before.row);
            Some(met.unwrap_or(Why::LastRound))
        })
    }),
    ("the row of the round after", |p| {
        p.rule(|p, hearing| {
            let after = heard_in(p.hearings, p.i, hearing.round + 1)?;
            first_met(&hearing.before, &after.row)
        })
    }),
    ("the decided round for one without a decision", |p| {
        p.number(CRASHED, |p, _, _| p.decided())
    }),
    ("the round before the crash", |p| {
        p.number(CRASHED, |_, _, right| right - 1)
    }),
    ("the crash round for one that crashed later", |p| {
        match p.schedule.crash(p.i) {
            0 => p.right(),
            round => Why::Crashed { round },
        }
    }),
    ("the answer for the process after", |p| {
        p.of(p.i % p.schedule.n + 1).right()
    }),
];

/// Those that show with a larger n and t alone.
pub const LARGER_TAKES: [(&str, WhyBy); 3] = [
    // Nobody is told in round 4 with n = 4 and t = 3: whoever is undecided then is alone.
    ("the last round named before told", |p| {
        p.rule(|p, _| (p.decided() == p.schedule.t + 1).then_some(Why::LastRound))
    }),
    // Before round 3 nobody is missing in a quiet one.
    ("no missing ones for every quiet round", |p| {
        p.number(QUIET, |_, _, _| 0)
    }),
    ("a sender above 32 given as one from 1", |p| {
        p.number(TOLD, |_, _, right| (right - 1) % 32 + 1)
    }),
];

/// One that shows with sender 64 alone.
pub const IN_SIX_BITS: (&str, WhyBy) = ("numbers kept in six bits", |p| {
    let kind = p.right().numbers()[0];
    p.number(kind, |_, _, right| right % 64)
});

/// The right answer, as a way of taking it.
fn right(p: Process) -> Why {
    p.right()
}

/// The lowest process that decided in the round before the one in which this one did.
fn before(p: &Process) -> Option<usize> {
    let before = p.decided().checked_sub(1).filter(|round| *round != 0)?;
    let decided = |i: &usize| usize::from(p.run.rounds[i - 1]) == before;
    (1..=p.schedule.n).find(decided)
}

/// The answer by a way of hearing that may be wrong: a process may survive then without a decision, or decide by no rule,
/// and the one of its round is named.
fn by_hearings(p: Process) -> Why {
    match p.hearing() {
        None => Why::Crashed {
            round: p.schedule.crash(p.i),
        },
        Some(hearing) => {
            let (t, row) = (hearing.before.t, &hearing.row);
            let (missing, estimates) = (missing(row), estimates(row));
            let of_round = match hearing.round < t {
                true => Why::Quiet { missing },
                false => Why::RoundT { estimates },
            };
            first_met(&hearing.before, row).unwrap_or(of_round)
        }
    }
}

/// A call that takes the answer wrongly.
pub fn taking(take: WhyBy) -> impl Fn(&Schedule, usize, &mut Lent) -> Result<(), u8> + Sync {
    explaining(take, Member::after, |reach| reach)
}

/// A call that hears by a wrong turn.
pub fn hearing(hear: Hear) -> impl Fn(&Schedule, usize, &mut Lent) -> Result<(), u8> + Sync {
    explaining(by_hearings, hear, |reach| reach)
}

/// A call that keeps reaches wrongly.
pub fn cutting(cut: Cut) -> impl Fn(&Schedule, usize, &mut Lent) -> Result<(), u8> + Sync {
    explaining(right, Member::after, cut)
}

/// A call that explains an accepted schedule with reaches that are changed, by a way of hearing and a way of taking the
/// answer.
fn explaining(
    take: WhyBy,
    hear: Hear,
    cut: Cut,
) -> impl Fn(&Schedule, usize, &mut Lent) -> Result<(), u8> + Sync {
    move |schedule, id, lent| {
        schedule.ask().map_err(Refusal::number)?;
        if out_of_range(schedule, id) {
            return Err(Refusal::OwnNumber.number());
        }
        let mut schedule = schedule.clone();
        for reach in &mut schedule.reaches {
            *reach = cut(*reach);
        }
        let (run, hearings) = play_heard(&schedule, hear);
        let process = Process {
            schedule: &schedule,
            run: &run,
            hearings: &hearings,
            i: id,
        };
        *lent = take(process).numbers();
        Ok(())
    }
}

/// A call that refuses some accepted schedules.
pub fn refusing(refuse: Refuse) -> impl Fn(&Schedule, usize, &mut Lent) -> Result<(), u8> + Sync {
    move |schedule, id, lent| {
        schedule.ask().map_err(Refusal::number)?;
        match refuse(schedule) {
            Some(refused) => Err(refused.refusal.number()),
            None => by_reference(schedule, id, lent),
        }
    }
}

/// A way of calling for why.
pub type ExplainBy = fn(&Schedule, usize, &mut Lent) -> Result<(), u8>;

/// Numbers that are written or kept wrongly.
pub const WRITTEN: [(&str, ExplainBy); 17] = [
    ("nothing written", |s, id, lent| {
        let mut unused = *lent;
        by_reference(s, id, &mut unused)
    }),
    ("the kind alone written", |s, id, lent| {
        after(s, id, lent, |before, given| given[1] = before[1])
    }),
    ("the number alone written", |s, id, lent| {
        after(s, id, lent, |before, given| given[0] = before[0])
    }),
    ("no number left as it was", |s, id, lent| {
        after(s, id, lent, |before, given| {
            if given[0] == 2 || given[0] == 5 {
                given[1] = before[1];
            }
        })
    }),
    ("the kind and the number exchanged", |s, id, lent| {
        after(s, id, lent, |_, given| given.swap(0, 1))
    }),
    ("the kinds counted from 1", |s, id, lent| {
        after(s, id, lent, |_, given| given[0] += 1)
    }),
    ("the kinds of zeros and quiet exchanged", |s, id, lent| {
        after(s, id, lent, |_, given| match given[0] {
            2 => given[0] = 3,
            3 => given[0] = 2,
            _ => {}
        })
    }),
    ("crashed as the last kind", |s, id, lent| {
        after(s, id, lent, |_, given| given[0] = (given[0] + 5) % 6)
    }),
    ("the round given with zeros only", |s, id, lent| {
        after(s, id, lent, |_, given| {
            if given[0] == 2 {
                given[1] = 2;
            }
        })
    }),
    ("the round given with the last round", |s, id, lent| {
        let last = s.t.wrapping_add(1);
        after(s, id, lent, |_, given| {
            if given[0] == 5 {
                given[1] = last;
            }
        })
    }),
    ("the kind written as a byte", |s, id, lent| {
        after(s, id, lent, |before, given| {
            given[0] |= before[0] & !0xff;
        })
    }),
    ("the number written as four bytes", |s, id, lent| {
        after(s, id, lent, |before, given| {
            given[1] |= before[1] & !0xffff_ffff;
        })
    }),
    ("the number added to what stood there", |s, id, lent| {
        after(s, id, lent, |before, given| {
            given[1] = given[1].wrapping_add(before[1]);
        })
    }),
    ("a refused call that writes 0 and 0", |s, id, lent| {
        refused(s, id, lent, |_, lent| *lent = [0; 2])
    }),
    ("a refused call that writes its number", |s, id, lent| {
        refused(s, id, lent, |number, lent| lent[1] = usize::from(number))
    }),
    ("the number written on refusal 10", |s, id, lent| {
        refused(s, id, lent, |number, lent| {
            if number == 10 {
                lent[1] = 0;
            }
        })
    }),
    ("the kind written on refusal 7", |s, id, lent| {
        refused(s, id, lent, |number, lent| {
            if number == 7 {
                lent[0] = 0;
            }
        })
    }),
];

/// The right call; what an accepted one gives is changed, with a look at what stood there.
fn after(
    schedule: &Schedule,
    id: usize,
    lent: &mut Lent,
    change: impl Fn(&Lent, &mut Lent),
) -> Result<(), u8> {
    let before = *lent;
    by_reference(schedule, id, lent)?;
    change(&before, lent);
    Ok(())
}

/// The right call; a refused one changes the numbers, with a look at its own number.
fn refused(
    schedule: &Schedule,
    id: usize,
    lent: &mut Lent,
    change: impl Fn(u8, &mut Lent),
) -> Result<(), u8> {
    let answer = by_reference(schedule, id, lent);
    if let Err(number) = answer {
        change(number, lent);
    }
    answer
}

/// Questions that are asked wrongly.
pub const ASKED: [(&str, ExplainBy); 24] = [
    ("10 asked before 7", |s, id, lent| {
        match by_reference(s, id, lent) {
            Err(7) if out_of_range(s, id) => Err(10),
            answer => answer,
        }
    }),
    ("10 asked before 4 to 7", |s, id, lent| {
        match by_reference(s, id, lent) {
            Err(4..=7) if out_of_range(s, id) => Err(10),
            answer => answer,
        }
    }),
    ("10 asked before 3", |s, id, lent| {
        match by_reference(s, id, lent) {
            Err(3..=7) if out_of_range(s, id) => Err(10),
            answer => answer,
        }
    }),
    ("10 asked first", |s, id, lent| {
        match by_reference(s, id, lent) {
            Err(_) if out_of_range(s, id) => Err(10),
            answer => answer,
        }
    }),
    ("process 0 taken for 1", |s, id, lent| {
        by_reference(s, id.max(1), lent)
    }),
    ("process n + 1 taken for n", |s, id, lent| {
        by_reference(s, if id == s.n.wrapping_add(1) { s.n } else { id }, lent)
    }),
    ("processes up to the largest n let pass", |s, id, lent| {
        let id = if id <= LARGEST { id.min(s.n) } else { id };
        by_reference(s, id, lent)
    }),
    ("the process number taken as a byte", |s, id, lent| {
        by_reference(s, id % 256, lent)
    }),
    ("the process number taken as four bytes", |s, id, lent| {
        by_reference(s, id % (1 << 32), lent)
    }),
    ("process n refused", |s, id, lent| {
        let mut given = *lent;
        by_reference(s, id, &mut given)?;
        if id == s.n {
            return Err(10);
        }
        *lent = given;
        Ok(())
    }),
    ("processes counted from 0", |s, id, lent| {
        by_reference(s, id.wrapping_add(1), lent)
    }),
    ("1 in place of 10", |s, id, lent| {
        by_reference(s, id, lent).map_err(|number| if number == 10 { 1 } else { number })
    }),
    ("votes that are too long let pass", |s, id, lent| {
        with(s, id, lent, |s| s.votes.truncate(s.n))
    }),
    ("crashes that are too long let pass", |s, id, lent| {
        with(s, id, lent, |s| s.crashes.truncate(s.n))
    }),
    ("reaches that are too long let pass", |s, id, lent| {
        with(s, id, lent, |s| s.reaches.truncate(s.n))
    }),
    ("votes above 1 let pass", |s, id, lent| {
        with(s, id, lent, |s| {
            for vote in &mut s.votes {
                *vote = (*vote).min(1);
            }
        })
    }),
    ("crash rounds above t + 1 let pass", |s, id, lent| {
        with(s, id, lent, |s| {
            let last = s.t.saturating_add(1).min(255) as u8;
            for crash in &mut s.crashes {
                *crash = (*crash).min(last);
            }
        })
    }),
    ("reaches above n let pass", |s, id, lent| {
        with(s, id, lent, |s| {
            let named = everyone(s.n.min(LARGEST));
            for reach in &mut s.reaches {
                *reach &= named;
            }
        })
    }),
    ("n = 65 let in", |s, id, lent| {
        with(s, id, lent, |s| {
            if s.n == LARGEST + 1 {
                s.n = LARGEST;
                s.votes.truncate(LARGEST);
                s.crashes.truncate(LARGEST);
                s.reaches.truncate(LARGEST);
            }
        })
    }),
    ("n and t taken as bytes", |s, id, lent| {
        with(s, id, lent, |s| (s.n, s.t) = (s.n % 256, s.t % 256))
    }),
    ("number 7 not asked", |s, id, lent| {
        match by_reference(s, id, lent) {
            Err(7) if out_of_range(s, id) => Err(10),
            Err(7) => Ok(()),
            answer => answer,
        }
    }),
    ("number 7 asked before later processes", |s, id, lent| {
        let answer = by_reference(s, id, lent);
        if let Err(4..=6) = answer {
            let right = (1..=s.n).take_while(|i| s.ask_process(*i).is_ok());
            let crashes = &s.crashes[..right.count()];
            if count_crashes(s.t, crashes).count > s.t {
                return Err(7);
            }
        }
        answer
    }),
    ("4 to 6 asked of the one process alone", |s, id, lent| {
        let answer = by_reference(s, id, lent);
        match answer {
            Err(4..=6) if !out_of_range(s, id) && s.ask_process(id).is_ok() => Ok(()),
            _ => answer,
        }
    }),
    ("a crash round of t + 1 refused", |s, id, lent| {
        let mut given = *lent;
        by_reference(s, id, &mut given)?;
        if (1..=s.n).any(|i| s.crash(i) == s.t + 1) {
            return Err(5);
        }
        *lent = given;
        Ok(())
    }),
];

/// Whether a process number is out of range.
fn out_of_range(schedule: &Schedule, id: usize) -> bool {
    !(1..=schedule.n).contains(&id)
}

/// The right call with another schedule.
fn with(
    schedule: &Schedule,
    id: usize,
    lent: &mut Lent,
    change: impl Fn(&mut Schedule),
) -> Result<(), u8> {
    let mut schedule = schedule.clone();
    change(&mut schedule);
    by_reference(&schedule, id, lent)
}

/// A way of printing the answers for all processes in order.
pub type Print = fn(&[Why]) -> Vec<u8>;

/// Wrong lines of an accepted text.
pub const PRINTED: [(&str, Print); 22] = [
    ("the names in another order", |whys| {
        named("id number rule", whys)
    }),
    ("the names of the report", |whys| {
        named("id decision round", whys)
    }),
    ("the names with a capital", |whys| {
        named("Id rule number", whys)
    }),
    ("no line of names", |whys| {
        lines(whys)[HEADING.len() + 1..].to_vec()
    }),
    ("processes from 0", |whys| {
        printed(whys, |id, word, number| {
            format!("{} {word} {number}\n", id - 1)
        })
    }),
    ("no process numbers", |whys| {
        printed(whys, |_, word, number| format!("{word} {number}\n"))
    }),
    ("process n left out", |whys| lines(&whys[..whys.len() - 1])),
    ("process 1 left out", |whys| {
        printed(whys, |id, word, number| match id {
            1 => String::new(),
            _ => format!("{id} {word} {number}\n"),
        })
    }),
    ("those without a decision left out", |whys| {
        printed(whys, |id, word, number| match word {
            "crashed" => String::new(),
            _ => format!("{id} {word} {number}\n"),
        })
    }),
    ("the rule and the number exchanged", |whys| {
        printed(whys, |id, word, number| format!("{id} {number} {word}\n"))
    }),
    ("the kind's number for its word", |whys| {
        printed(whys, |id, word, number| {
            let kind = WORDS.iter().position(|known| *known == word);
            format!("{id} {} {number}\n", kind.unwrap_or(9))
        })
    }),
    ("round t with a space", |whys| {
        printed(whys, |id, word, number| {
            format!("{id} {} {number}\n", word.replace('-', " "))
        })
    }),
    ("0 in place of -", |whys| {
        printed(whys, |id, word, number| {
            format!("{id} {word} {}\n", number.replace('-', "0"))
        })
    }),
    ("- in place of 0", |whys| {
        printed(whys, |id, word, number| {
            let number = if number == "0" { "-" } else { number };
            format!("{id} {word} {number}\n")
        })
    }),
    ("nothing in place of -", |whys| {
        printed(whys, |id, word, number| match number {
            "-" => format!("{id} {word}\n"),
            _ => format!("{id} {word} {number}\n"),
        })
    }),
    ("two spaces before the number", |whys| {
        printed(whys, |id, word, number| format!("{id} {word}  {number}\n"))
    }),
    ("a space at the end", |whys| {
        printed(whys, |id, word, number| format!("{id} {word} {number} \n"))
    }),
    ("a leading zero in the number", |whys| {
        printed(whys, |id, word, number| match number {
            "-" => format!("{id} {word} -\n"),
            _ => format!("{id} {word} {number:0>2}\n"),
        })
    }),
    ("the last digit of the number alone", |whys| {
        printed(whys, |id, word, number| {
            format!("{id} {word} {}\n", &number[number.len() - 1..])
        })
    }),
    ("no LF at the end", |whys| {
        let mut printed = lines(whys);
        printed.pop();
        printed
    }),
    ("an empty line at the end", |whys| {
        [&lines(whys)[..], b"\n"].concat()
    }),
    ("CR LF in place of LF", |whys| {
        let lines = String::from_utf8_lossy(&lines(whys)).replace('\n', "\r\n");
        lines.into_bytes()
    }),
];

/// The right lines under other names.
fn named(names: &str, whys: &[Why]) -> Vec<u8> {
    let lines = &lines(whys)[HEADING.len()..];
    [names.as_bytes(), lines].concat()
}

/// Lines that are printed otherwise: of each the process, its word and what is printed for its number.
fn printed(whys: &[Why], print: impl Fn(usize, &str, &str) -> String) -> Vec<u8> {
    let mut printed = format!("{HEADING}\n");
    for (id, why) in (1..).zip(whys) {
        let [kind, number] = why.numbers();
        let number = match why {
            Why::ZerosOnly | Why::LastRound => "-".to_string(),
            _ => number.to_string(),
        };
        printed += &print(id, WORDS[kind], &number);
    }
    printed.into_bytes()
}

/// A program that prints the right answers wrongly.
pub fn printing(print: Print) -> impl Fn(&[u8]) -> Result<Vec<u8>, String> + Sync {
    program(right, print)
}

/// A program that takes the answers wrongly.
pub fn program_taking(take: WhyBy) -> impl Fn(&[u8]) -> Result<Vec<u8>, String> + Sync {
    program(take, lines)
}

/// A program that takes the answers for an accepted schedule in a given way, and prints them in one.
fn program(take: WhyBy, print: Print) -> impl Fn(&[u8]) -> Result<Vec<u8>, String> + Sync {
    move |text| {
        Ok(match read(text) {
            Err(refused) => refusal(text, refused),
            Ok(schedule) => {
                let (run, hearings) = play_heard(&schedule, Member::after);
                let process = |i| Process {
                    schedule: &schedule,
                    run: &run,
                    hearings: &hearings,
                    i,
                };
                let of_process = |i| take(process(i));
                let whys: Vec<Why> = (1..=schedule.n).map(of_process).collect();
                print(&whys)
            }
        })
    }
}

/// A way of answering a text.
pub type AnswerBy = fn(&[u8]) -> Vec<u8>;

/// Wrong answers to refused texts.
pub const REFUSALS: [(&str, AnswerBy); 7] = [
    ("a refusal under the names of why", |text| {
        refused_by(text, |refused| {
            [HEADING.as_bytes(), b"\n", &refusal(text, refused)].concat()
        })
    }),
    ("a refusal without its line", |text| {
        refused_by(text, |Refused { refusal, line }| {
            format!("refused line\n{} {line}\n", refusal.number()).into_bytes()
        })
    }),
    ("a refusal with the line after it", |text| {
        refused_by(text, |mut refused| {
            refused.line += 1;
            refusal(text, refused)
        })
    }),
    ("the names alone for a refused text", |text| {
        refused_by(text, |_| format!("{HEADING}\n").into_bytes())
    }),
    ("nothing printed for a refused text", |text| {
        refused_by(text, |_| Vec::new())
    }),
    ("number 10 for more than t crashes", |text| {
        refused_by(text, |mut refused| {
            if refused.refusal == Refusal::TooManyCrashes {
                refused.refusal = Refusal::OwnNumber;
            }
            refusal(text, refused)
        })
    }),
    ("line 0 for an empty line 1", |text| {
        refused_by(text, |mut refused| {
            if line(text, 1).is_empty() {
                refused.line = 0;
            }
            refusal(text, refused)
        })
    }),
];

/// The right answer to an accepted text, and another one to a refused text.
fn refused_by(text: &[u8], change: impl Fn(Refused) -> Vec<u8>) -> Vec<u8> {
    match read(text) {
        Err(refused) => change(refused),
        Ok(_) => answer(text),
    }
}

/// What the other programs print, in place of this one's lines.
pub const OTHERS: [(&str, AnswerBy); 2] = [
    ("the report printed", report::answer),
    ("the outcome printed", outcome::answer),
];

#[cfg(test)]
mod tests {
    use super::*;
    use reference::Set;

    /// A crash: the process, its crash round, and its reach.
    type Crash = (usize, u8, Set);

    /// A schedule with n = 4 and t = 3, all votes 1.
    fn schedule(crashes: &[Crash]) -> Schedule {
        let mut schedule = Schedule::quiet(4, 3);
        for (i, round, reach) in crashes {
            schedule.crashes[i - 1] = *round;
            schedule.reaches[i - 1] = *reach;
        }
        schedule
    }

    /// The places of the wrong takes that differ from the right answer for process i, each with what it gives.
    fn wrong_takes(schedule: &Schedule, i: usize, right: Lent) -> Vec<(usize, Lent)> {
        let mut lent = [9; 2];
        assert_eq!(by_reference(schedule, i, &mut lent), Ok(()));
        assert_eq!(lent, right);
        let take = |(_, take): &(&str, WhyBy)| {
            let mut lent = [9; 2];
            assert_eq!(taking(*take)(schedule, i, &mut lent), Ok(()));
            lent
        };
        let of_place = TAKES.iter().map(take).enumerate();
        of_place.filter(|(_, found)| *found != right).collect()
    }

    #[test]
    fn wrong_rules_and_numbers_of_round_2() {
        // Case A: in each of rounds 1 and 2 four estimates of 1, and in round 3 four decided messages.
        let expected = [
            (13, [2, 0]),
            (15, [3, 2]),
            (17, [3, 4]),
            (18, [3, 1]),
            (25, [4, 4]),
            (28, [1, 1]),
        ];
        assert_eq!(wrong_takes(&schedule(&[]), 1, [3, 0]), expected);
        // Case H: process 1 crashes in round 3 and hears no row there.
        let case_h = schedule(&[(1, 3, 0)]);
        let found = wrong_takes(&case_h, 1, [3, 0]);
        assert!(found.contains(&(31, [0, 3])) && !found.contains(&(28, [1, 1])));
        // Case I: process 1 crashes in round 2, heard by all.
        let case_i = schedule(&[(1, 2, 0b1110)]);
        assert!(wrong_takes(&case_i, 2, [3, 0]).contains(&(16, [3, 1])));
        // Case B: zeros in round 2, and one among three estimates of 1 in round 1.
        let mut case_b = schedule(&[]);
        case_b.votes[0] = 0;
        let expected = [(11, [3, 0]), (27, [3, 0]), (28, [1, 1])];
        assert_eq!(wrong_takes(&case_b, 1, [2, 0]), expected);
        // Case C: one is missing in rounds 1 and 2, so that the row of round 1 meets no rule of round 2.
        let case_c = schedule(&[(1, 1, 0)]);
        let expected = [(12, [3, 1]), (27, [5, 0]), (28, [1, 2])];
        assert_eq!(wrong_takes(&case_c, 2, [2, 0]), expected);
    }

    #[test]
    fn wrong_rules_and_numbers_of_later_rounds() {
        // Case D: three estimates of 0 in round 3, and three decided messages in round 4.
        let case_d = schedule(&[(1, 1, 0b0010)]);
        let expected = [
            (14, [2, 0]),
            (19, [4, 1]),
            (20, [4, 2]),
            (21, [4, 0]),
            (22, [4, 2]),
            (24, [3, 1]),
            (28, [1, 2]),
        ];
        assert_eq!(wrong_takes(&case_d, 2, [4, 3]), expected);
        // Process 1 of it has no decision.
        let expected = [(29, [0, 0]), (30, [0, 0]), (32, [4, 3])];
        assert_eq!(wrong_takes(&case_d, 1, [0, 1]), expected);
        // Case E: process 3 hears itself alone in rounds 3 and 4.
        let case_e = schedule(&[(1, 1, 0b0110), (4, 2, 0b0010), (2, 3, 0)]);
        let expected = [(26, [4, 1]), (32, [0, 2])];
        assert_eq!(wrong_takes(&case_e, 3, [5, 0]), expected);
        // Process 3 alone decides in round 2, and is unheard in round 3.
        let unheard = schedule(&[(4, 2, 0b0100), (3, 3, 0)]);
        assert!(wrong_takes(&unheard, 1, [4, 2]).contains(&(4, [1, 3])));
    }

    #[test]
    fn wrong_senders() {
        // Processes 2 and 3 decide in round 2. In round 3 process 1 hears both, though 2 crashes there, and in round 4
        // itself alone; so the first decider is 3.
        let told = schedule(&[(4, 2, 0b0110), (2, 3, 0b0001)]);
        let expected = [
            (0, [1, 3]),
            (1, [1, 1]),
            (2, [1, 1]),
            (5, [1, 3]),
            (7, [1, 1]),
            (8, [1, 1]),
            (9, [5, 0]),
            (27, [4, 3]),
            (28, [1, 1]),
            (32, [3, 0]),
        ];
        assert_eq!(wrong_takes(&told, 1, [1, 2]), expected);
        // Process 2 isn't heard: 3 is told of, whose number isn't that of the messages. Without it, round t would decide
        // process 1 on two estimates.
        let unheard = schedule(&[(4, 2, 0b0110), (2, 3, 0)]);
        let found = wrong_takes(&unheard, 1, [1, 3]);
        assert!(found.contains(&(3, [1, 2])) && found.contains(&(6, [1, 1])));
        let both_told = schedule(&[(4, 2, 0b0100)]);
        assert!(wrong_takes(&both_told, 1, [1, 3]).contains(&(10, [4, 2])));
    }

    /// So larger clusters have to be compared to find these: n = 4 and t = 3, in every 7th schedule in which all vote 1.
    #[test]
    fn those_that_need_larger_clusters() {
        for number in (0..33_usize.pow(4)).step_by(7) {
            let mut schedule = Schedule::quiet(4, 3);
            for i in 1..=4 {
                let way = number / 33_usize.pow(i as u32 - 1) % 33;
                if way != 0 {
                    schedule.crashes[i - 1] = (way - 1) as u8 / 8 + 1;
                    let bits = (way - 1) as Set % 8;
                    let below = bits & ((1 << (i - 1)) - 1);
                    schedule.reaches[i - 1] = below | (bits ^ below) << 1;
                }
            }
            if schedule.ask().is_err() {
                continue;
            }
            let (run, hearings) = play_heard(&schedule, Member::after);
            for i in 1..=4 {
                let process = Process {
                    schedule: &schedule,
                    run: &run,
                    hearings: &hearings,
                    i,
                };
                for (name, take) in LARGER_TAKES {
                    assert_eq!(take(process), process.right(), "{name}: {schedule:?}");
                }
            }
        }
    }
}
