//! Wrong implementations, each with one planted difference, to show that the matching finds it.

use std::cmp::Reverse;

use reference::crashes::{count_crashes, CrashCount};
use reference::member::{Member, DECIDED_0, DECIDED_1, ESTIMATE_0, ESTIMATE_1, NOTHING};
use reference::questions::Refusal;
use reference::report::{answer, refusal, report};
use reference::run::{play, play_heard, Counts, Hearing, Run};
use reference::schedule::{everyone, Schedule};
use reference::so_far::{crashes_by, Rule, RULE};
use reference::text::{line, read, Refused};
use reference::{Set, LARGEST, LONGEST};

use crate::members::{ByReference, Machine, State};
use crate::tables::by_reference;

/// A way of hearing a row.
pub type Hear = fn(&Member, &[u8]) -> Member;

/// Wrong turns of hearing: four that document 01 names, then the limits of its rules off by one. (One estimate more in
/// round t would be the first of them again.)
pub const TURNS: [(&str, Hear); 7] = [
    ("the rule of earlier rounds in round t", earlier_rule),
    ("only zeros counted in round 1", only_zeros),
    ("0 decided in round 2 on one zero", one_zero),
    ("stopping without the \"decided\" round", stop_at_once),
    ("one silent process more up to round t - 1", one_silent_more),
    (
        "one silent process fewer up to round t - 1",
        one_silent_fewer,
    ),
    ("one estimate fewer in round t", one_estimate_fewer),
];

/// The place of the turn that shows only after the first decision.
pub const STOPPING: usize = 3;

/// Decides in the member's round or not, as given, if the rule on the number of silent processes is asked there and
/// that number is as given. The right turn is kept elsewhere.
fn turn(member: &Member, row: &[u8], silent: impl Fn(usize) -> bool, decides: bool) -> Member {
    let mut next = member.after(row);
    let codes = |code: u8| row.iter().filter(|heard| **heard == code).count();
    let other_rule = codes(DECIDED_0) + codes(DECIDED_1) != 0
        || (member.round == 2 && codes(ESTIMATE_1) == 0)
        || member.round == 1
        || member.decided != 0;
    if !other_rule && silent(codes(NOTHING)) {
        next.decided = if decides { member.round } else { 0 };
    }
    next
}

fn earlier_rule(member: &Member, row: &[u8]) -> Member {
    let (t, r) = (member.t, member.round);
    turn(member, row, |silent| r == t && silent > r - 2, false)
}

fn one_silent_more(member: &Member, row: &[u8]) -> Member {
    let (t, r) = (member.t, member.round);
    turn(member, row, |silent| r < t && silent == r - 1, true)
}

fn one_silent_fewer(member: &Member, row: &[u8]) -> Member {
    let (t, r) = (member.t, member.round);
    turn(member, row, |silent| r < t && silent == r - 2, false)
}

fn one_estimate_fewer(member: &Member, row: &[u8]) -> Member {
    let (t, r) = (member.t, member.round);
    turn(member, row, |silent| r == t && silent == t, true)
}

fn only_zeros(member: &Member, row: &[u8]) -> Member {
    let mut next = member.after(row);
    if member.round == 1 && !row.contains(&ESTIMATE_0) {
        next.estimate = member.estimate;
    }
    next
}

fn one_zero(member: &Member, row: &[u8]) -> Member {
    let mut next = member.after(row);
    if member.round == 2 && row.contains(&ESTIMATE_0) {
        next.decided = 2;
    }
    next
}

fn stop_at_once(member: &Member, row: &[u8]) -> Member {
    let mut next = member.after(row);
    if member.decided == 0 && next.decided != 0 {
        next.round += 1;
    }
    next
}

/// A wrong change of a right answer to an accepted schedule.
pub type Change = fn(&Schedule, &mut Run);

/// A program that hears by a wrong turn, or changes the finished run.
pub fn program_by(hear: Hear, change: Change) -> impl Fn(&[u8]) -> Result<Vec<u8>, String> + Sync {
    move |text| {
        Ok(match read(text) {
            Err(_) => answer(text),
            Ok(schedule) => report(&schedule, &changed_run(&schedule, hear, change)),
        })
    }
}

/// A call on tables that hears by a wrong turn, or changes the finished run.
pub fn simulate_by(
    hear: Hear,
    change: Change,
) -> impl Fn(&Schedule, &mut [u8], &mut [u8]) -> Result<Counts, u8> + Sync {
    move |schedule, decisions, rounds| {
        answer_by(schedule, decisions, rounds, |schedule| {
            changed_run(schedule, hear, change)
        })
    }
}

/// The answer to a call on tables whose schedule, if it is accepted, is run in a given way.
pub fn answer_by(
    schedule: &Schedule,
    decisions: &mut [u8],
    rounds: &mut [u8],
    run: impl Fn(&Schedule) -> Run,
) -> Result<Counts, u8> {
    let asked = schedule.ask_tables(decisions.len(), rounds.len());
    asked.map_err(Refusal::number)?;
    let run = run(schedule);
    decisions.copy_from_slice(&run.decisions);
    rounds.copy_from_slice(&run.rounds);
    Ok(run.counts)
}

/// The run of an accepted schedule by a way of hearing, changed at its end.
pub fn changed_run(schedule: &Schedule, hear: Hear, change: Change) -> Run {
    let mut run = play(schedule, hear);
    change(schedule, &mut run);
    run
}

/// The same with its hearings.
pub fn changed_run_heard(schedule: &Schedule, hear: Hear, change: Change) -> (Run, Vec<Hearing>) {
    let (mut run, hearings) = play_heard(schedule, hear);
    change(schedule, &mut run);
    (run, hearings)
}

/// The messages are off by one when as many crash as may.
pub fn one_message_more(schedule: &Schedule, run: &mut Run) {
    if schedule.f() == schedule.t {
        run.counts.messages += 1;
    }
}

/// Wrong turns of counting messages: three that document 02's K1 invites, and then "a crash adds the ones of its reach"
/// taken without document 01's "if it says something".
pub const COUNTS: [(&str, Change); 4] = [
    ("the own copy counted", own_copy),
    ("one copy less, n - 2", one_copy_less),
    ("n - 1 for a crashing sender too", crash_as_completing),
    ("the reach of a stopped sender counted", stopped_reach),
];

fn own_copy(schedule: &Schedule, run: &mut Run) {
    run.counts.messages += completing_sayings(schedule, run);
}

fn one_copy_less(schedule: &Schedule, run: &mut Run) {
    run.counts.messages -= completing_sayings(schedule, run);
}

fn crash_as_completing(schedule: &Schedule, run: &mut Run) {
    for i in crashing(schedule) {
        if schedule.crash(i) <= last_said(schedule, run, i) {
            run.counts.messages += schedule.n - 1 - ones(schedule, i);
        }
    }
}

fn stopped_reach(schedule: &Schedule, run: &mut Run) {
    for i in crashing(schedule) {
        if schedule.crash(i) > last_said(schedule, run, i) {
            run.counts.messages += ones(schedule, i);
        }
    }
}

/// The processes that crash.
fn crashing(schedule: &Schedule) -> impl Iterator<Item = usize> + '_ {
    (1..=schedule.n).filter(move |i| schedule.crash(*i) != 0)
}

/// The ones of the reach of process i.
fn ones(schedule: &Schedule, i: usize) -> usize {
    schedule.reaches[i - 1].count_ones() as usize
}

/// The last round in which process i says something, if it has not crashed before: the one after its decided round,
/// and at most the last round of all.
fn last_said(schedule: &Schedule, run: &Run, i: usize) -> usize {
    let last = schedule.t + 1;
    match usize::from(run.rounds[i - 1]) {
        0 => last,
        decided => last.min(decided + 1),
    }
}

/// How often a completing sender says something, over all rounds and senders.
fn completing_sayings(schedule: &Schedule, run: &Run) -> usize {
    let of_sender = |i| match schedule.crash(i) {
        0 => last_said(schedule, run, i),
        crash => last_said(schedule, run, i).min(crash - 1),
    };
    (1..=schedule.n).map(of_sender).sum()
}

/// Wrong orders of the first decider that document 02's K3 invites: each takes the least by a key of decided round d,
/// crash round c and number i. The right key is (d, c != 0, i).
pub const FIRSTS: [(&str, Change); 7] = [
    ("the lower number first, crash or not", |s, run| {
        first_by(s, run, |d, _, i| (d, i))
    }),
    ("a crashing process first", |s, run| {
        first_by(s, run, |d, c, i| (d, c == 0, i))
    }),
    ("the smaller crash round first", |s, run| {
        first_by(s, run, |d, c, i| (d, c, i))
    }),
    ("the larger crash round first", |s, run| {
        first_by(s, run, |d, c, i| (d, c != 0, Reverse(c), i))
    }),
    ("a crash after stopping taken for none", |s, run| {
        first_by(s, run, |d, c, i| (d, c == d + 1, i))
    }),
    ("a survivor first, whatever its round", |s, run| {
        first_by(s, run, |d, c, i| (c != 0, d, i))
    }),
    ("the higher number first", |s, run| {
        first_by(s, run, |d, c, i| (d, c != 0, Reverse(i)))
    }),
];

/// Makes the least process by a key, of those that decided, the first decider.
fn first_by<K: Ord>(schedule: &Schedule, run: &mut Run, key: impl Fn(u8, u8, usize) -> K) {
    let decided = (1..=schedule.n).filter(|i| run.rounds[i - 1] != 0);
    let first = decided.min_by_key(|i| key(run.rounds[i - 1], schedule.crashes[i - 1], *i));
    run.counts.first = first.unwrap_or(0);
}

/// Wrong turns of f that document 02's K4 invites.
pub const CRASHES: [(&str, Change); 2] = [
    ("f ends one crash early", |s, run| {
        run.counts.f = run.counts.f.min(s.t - 1);
    }),
    ("the last process looked at given as f", |s, run| {
        run.counts.f = s.n;
    }),
];

/// A way of counting crashes: t and a table of crash rounds to the count, or to a number though nothing is refused.
pub type Count = fn(usize, &[u8]) -> Result<CrashCount, u8>;

/// Wrong counts of crashes that document 02's K4 invites: those that end at a wrong place, then those that end rightly
/// and tell it wrongly, then those that miss a crash, a part of t or a part of the table, one that refuses, and those
/// that answer in a byte.
pub const ENDS: [(&str, Count); 22] = [
    ("the count ends one crash early", |t, crashes| {
        Ok(count_crashes(t.saturating_sub(1), crashes))
    }),
    ("the count ends one crash late", |t, crashes| {
        Ok(count_crashes(t.saturating_add(1), crashes))
    }),
    ("the count goes on to the end", |_, crashes| {
        Ok(full(crashes))
    }),
    ("the count ends at the first crash", |_, crashes| {
        Ok(count_crashes(0, crashes))
    }),
    ("t + 1 wraps to 0", |t, crashes| {
        counted(t, crashes, |counted| {
            if t == usize::MAX {
                *counted = NOBODY;
            }
        })
    }),
    ("a place given, not a number", |t, crashes| {
        too_many(t, crashes, |counted| counted.looked_at -= 1)
    }),
    ("the process after the crash given", |t, crashes| {
        too_many(t, crashes, |counted| counted.looked_at += 1)
    }),
    ("n given where the count ends sooner", |t, crashes| {
        too_many(t, crashes, |counted| counted.looked_at = crashes.len())
    }),
    ("the full count with the crash's process", |t, crashes| {
        too_many(t, crashes, |counted| counted.count = full(crashes).count)
    }),
    ("t counted, not t + 1", |t, crashes| {
        too_many(t, crashes, |counted| counted.count = t)
    }),
    ("n + 1 given at the end", |t, crashes| {
        enough(t, crashes, |counted| counted.looked_at += 1)
    }),
    ("the last crash's process given at the end", |t, crashes| {
        enough(t, crashes, |counted| {
            let last = crashes.iter().rposition(|crash| *crash != 0);
            counted.looked_at = last.map_or(0, |place| place + 1);
        })
    }),
    ("one process looked at in an empty table", |t, crashes| {
        counted(t, crashes, |counted| {
            counted.looked_at = counted.looked_at.max(1);
        })
    }),
    ("only crash rounds of 1 counted", |t, crashes| {
        only(t, crashes, |crash| crash == 1)
    }),
    ("crash rounds above t + 1 not counted", |t, crashes| {
        only(t, crashes, |crash| {
            usize::from(crash) <= t.saturating_add(1)
        })
    }),
    ("crash rounds of 255 not counted", |t, crashes| {
        only(t, crashes, |crash| crash != 255)
    }),
    ("t taken as a byte", |t, crashes| {
        Ok(count_crashes(t % 256, crashes))
    }),
    ("t taken as four bytes", |t, crashes| {
        Ok(count_crashes(t as u32 as usize, crashes))
    }),
    (
        "processes beyond the largest cluster left out",
        |t, crashes| {
            let looked_at = crashes.len().min(LARGEST);
            Ok(count_crashes(t, &crashes[..looked_at]))
        },
    ),
    ("refused with 7", |t, crashes| {
        let counted = count_crashes(t, crashes);
        if counted.count > t {
            Err(7)
        } else {
            Ok(counted)
        }
    }),
    ("the count kept in a byte", |t, crashes| {
        counted(t, crashes, |counted| counted.count %= 256)
    }),
    ("the process looked at kept in a byte", |t, crashes| {
        counted(t, crashes, |counted| counted.looked_at %= 256)
    }),
];

/// A count that has looked at nobody.
const NOBODY: CrashCount = CrashCount {
    count: 0,
    looked_at: 0,
};

/// The count to the end, however many crash.
fn full(crashes: &[u8]) -> CrashCount {
    count_crashes(usize::MAX, crashes)
}

/// The right count, changed.
fn counted(t: usize, crashes: &[u8], change: impl Fn(&mut CrashCount)) -> Result<CrashCount, u8> {
    let mut counted = count_crashes(t, crashes);
    change(&mut counted);
    Ok(counted)
}

/// The right count, changed where more than t crash.
fn too_many(t: usize, crashes: &[u8], change: impl Fn(&mut CrashCount)) -> Result<CrashCount, u8> {
    counted(t, crashes, |counted| {
        if counted.count > t {
            change(counted);
        }
    })
}

/// The right count, changed where at most t crash.
fn enough(t: usize, crashes: &[u8], change: impl Fn(&mut CrashCount)) -> Result<CrashCount, u8> {
    counted(t, crashes, |counted| {
        if counted.count <= t {
            change(counted);
        }
    })
}

/// The count of some crash rounds alone.
fn only(t: usize, crashes: &[u8], some: impl Fn(u8) -> bool) -> Result<CrashCount, u8> {
    let crashes = crashes
        .iter()
        .map(|crash| u8::from(*crash != 0 && some(*crash)));
    Ok(count_crashes(t, &crashes.collect::<Vec<u8>>()))
}

/// Wrong rules of the crashes so far that document 02's K8 invites. The first three say too much: right runs break
/// them. The last two say too little: no right run breaks them, but they put the settling round above round B.
pub const RULES: [(&str, Rule); 5] = [
    (
        "r crashes in place of r - 1",
        Rule {
            least: |t, r| if r == t { t } else { r },
            ..RULE
        },
    ),
    (
        "crash rounds below r only",
        Rule {
            count: |crashes, r| crashes_by(crashes, r - 1),
            ..RULE
        },
    ),
    (
        "t + 1 crashes in round t",
        Rule {
            least: |t, r| if r == t { t + 1 } else { r - 1 },
            ..RULE
        },
    ),
    (
        "r - 1 crashes in round t too",
        Rule {
            least: |_, r| r - 1,
            ..RULE
        },
    ),
    (
        "r - 2 crashes in place of r - 1",
        Rule {
            least: |t, r| if r == t { t } else { r - 2 },
            ..RULE
        },
    ),
];

/// Wrong rules that say too little and never put the settling round above round B, so that right runs don't tell them
/// from the right one. How often they are met with equality does.
pub const LOOSE: [(&str, Rule); 2] = [
    (
        "all crashes counted, however late",
        Rule {
            count: |crashes, _| crashes_by(crashes, usize::MAX),
            ..RULE
        },
    ),
    (
        "crash rounds up to r + 1",
        Rule {
            count: |crashes, r| crashes_by(crashes, r + 1),
            ..RULE
        },
    ),
];

/// A process acts in its crash round: it shows the decision of another one that decides there. (The fifth wrong turn
/// that document 01 names.)
pub fn acts_in_crash_round(schedule: &Schedule, run: &mut Run) {
    for i in 1..=schedule.n {
        let crash = schedule.crashes[i - 1];
        let same = run.rounds.iter().position(|round| *round == crash);
        if let (true, 0, Some(other)) = (crash != 0, run.rounds[i - 1], same) {
            run.decisions[i - 1] = run.decisions[other];
            run.rounds[i - 1] = crash;
        }
    }
}

/// A report with one byte changed, when the largest cluster runs.
pub fn changed_byte(text: &[u8]) -> Result<Vec<u8>, String> {
    let mut printed = answer(text);
    let start = format!("n t f first last messages\n{LARGEST} ");
    if printed.starts_with(start.as_bytes()) {
        let last = printed.len() - 2;
        printed[last] ^= 1;
    }
    Ok(printed)
}

/// A program that answers by a changed refusal.
pub fn refused_by(
    change: fn(&[u8], Refused) -> Vec<u8>,
) -> impl Fn(&[u8]) -> Result<Vec<u8>, String> + Sync {
    move |text| {
        Ok(match read(text) {
            Ok(_) => answer(text),
            Err(refused) => change(text, refused),
        })
    }
}

/// Number 7 names the line after the last one.
pub fn wrong_line(text: &[u8], mut refused: Refused) -> Vec<u8> {
    if refused.refusal == Refusal::TooManyCrashes {
        refused.line += 1;
    }
    refusal(text, refused)
}

/// A refused line is printed without a NUL byte in it.
pub fn without_nul(text: &[u8], refused: Refused) -> Vec<u8> {
    let mut printed = refusal(text, refused);
    printed.retain(|byte| *byte != 0);
    printed
}

/// f is asked before the end of the text.
pub fn crashes_before_end(text: &[u8], refused: Refused) -> Vec<u8> {
    let lines = text.split_inclusive(|byte| *byte == b'\n');
    let before: Vec<u8> = lines
        .take(refused.line.saturating_sub(1))
        .flatten()
        .copied()
        .collect();
    match read(&before) {
        Err(earlier) if earlier.refusal == Refusal::TooManyCrashes => refusal(text, earlier),
        _ => refusal(text, refused),
    }
}

/// Number 7 names the line of the crash that makes t + 1 of them.
pub fn line_of_the_crash(text: &[u8], mut refused: Refused) -> Vec<u8> {
    if refused.refusal == Refusal::TooManyCrashes {
        let n = refused.line - 3;
        refused.line = 3 + count_in_text(text, n).looked_at;
    }
    refusal(text, refused)
}

/// Number 7 is asked as soon as t + 1 crash: before numbers 4 to 6 on the lines after it.
pub fn crashes_before_later_lines(text: &[u8], mut refused: Refused) -> Vec<u8> {
    if let Refusal::Vote | Refusal::CrashRound | Refusal::Reach = refused.refusal {
        let right = refused.line - 4;
        if count_in_text(text, right).count > number(text, 2, 1) {
            refused.refusal = Refusal::TooManyCrashes;
            refused.line = 3 + number(text, 2, 0);
        }
    }
    refusal(text, refused)
}

/// The count of crashes among the first so many processes of a text whose lines are of their form up to there.
fn count_in_text(text: &[u8], processes: usize) -> CrashCount {
    let crashes = (1..=processes).map(|i| number(text, 3 + i, 2) as u8);
    count_crashes(number(text, 2, 1), &crashes.collect::<Vec<u8>>())
}

/// The number in a field, counted from 0, of a line that is of its form.
pub fn number(text: &[u8], k: usize, field: usize) -> usize {
    let mut fields = line(text, k).split(|byte| *byte == b' ');
    let digits = fields.nth(field).unwrap_or_default();
    let append = |number, digit: &u8| 10 * number + usize::from(digit - b'0');
    digits.iter().fold(0, append)
}

/// A text of LONGEST + 1 bytes is read.
pub fn long_text(text: &[u8]) -> Result<Vec<u8>, String> {
    Ok(match text.len() {
        length if length == LONGEST + 1 => answer(&text[..LONGEST]),
        _ => answer(text),
    })
}

/// CR LF is taken for LF.
pub fn cr_lf(text: &[u8]) -> Result<Vec<u8>, String> {
    Ok(answer(&lf_for_cr_lf(text)))
}

/// A text with LF in place of each CR LF.
pub fn lf_for_cr_lf(text: &[u8]) -> Vec<u8> {
    let mut plain = text.to_vec();
    let mut k = 0;
    plain.retain(|byte| {
        k += 1;
        *byte != b'\r' || text.get(k) != Some(&b'\n')
    });
    plain
}

/// No answer to an empty line 1.
pub fn fails(text: &[u8]) -> Result<Vec<u8>, String> {
    match line(text, 1) {
        [] => Err("the program ends with an error".to_string()),
        _ => Ok(answer(text)),
    }
}

/// A refused call changes an answer table.
pub fn table_on_refusal(
    schedule: &Schedule,
    decisions: &mut [u8],
    rounds: &mut [u8],
) -> Result<Counts, u8> {
    let counts = by_reference(schedule, decisions, rounds);
    if let (Err(7), Some(round)) = (counts, rounds.last_mut()) {
        *round = round.wrapping_add(1);
    }
    counts
}

/// Number 7 is asked as soon as t + 1 crash: before the questions on the processes after it.
pub fn crashes_before_later_processes(
    schedule: &Schedule,
    decisions: &mut [u8],
    rounds: &mut [u8],
) -> Result<Counts, u8> {
    let answer = by_reference(schedule, decisions, rounds);
    if let Err(4..=6) = answer {
        let right = (1..=schedule.n).take_while(|i| schedule.ask_process(*i).is_ok());
        let crashes = &schedule.crashes[..right.count()];
        if count_crashes(schedule.t, crashes).count > schedule.t {
            return Err(7);
        }
    }
    answer
}

/// A rounds table that is too long is let pass.
pub fn long_table(
    schedule: &Schedule,
    decisions: &mut [u8],
    rounds: &mut [u8],
) -> Result<Counts, u8> {
    let length = rounds.len().min(decisions.len());
    by_reference(schedule, decisions, &mut rounds[..length])
}

/// Processes above n in a reach are let pass.
pub fn reach_above_n(
    schedule: &Schedule,
    decisions: &mut [u8],
    rounds: &mut [u8],
) -> Result<Counts, u8> {
    let mut schedule = schedule.clone();
    let named = everyone(schedule.n.min(LARGEST));
    for reach in &mut schedule.reaches {
        *reach &= named;
    }
    by_reference(&schedule, decisions, rounds)
}

/// n and t are taken modulo 256, as one byte each.
pub fn sizes_as_bytes(
    schedule: &Schedule,
    decisions: &mut [u8],
    rounds: &mut [u8],
) -> Result<Counts, u8> {
    let mut schedule = schedule.clone();
    (schedule.n, schedule.t) = (schedule.n % 256, schedule.t % 256);
    by_reference(&schedule, decisions, rounds)
}

/// A way of taking a state.
pub type Take = fn(Member) -> Option<Member>;

/// A machine that is right but for the ways given.
pub struct Wrong {
    /// What hearing does.
    pub hear: Hear,
    /// The own number that is opened for the one given.
    pub own: fn(usize, usize) -> usize,
    /// The set of an opened member.
    pub opened: fn(&Member) -> Set,
    /// The state that is taken for the one given, none if that one is refused with 11.
    pub taken: Take,
    /// The change of what a right saying gives.
    pub said: fn(Result<u8, u8>) -> Result<u8, u8>,
    /// The change of the state and the number of a refused hearing.
    pub refused: fn(&mut State, &[u8], u8) -> u8,
}

/// A machine with nothing wrong.
pub const RIGHT: Wrong = Wrong {
    hear: Member::after,
    own: |own, _| own,
    opened: |_| 0,
    taken: Some,
    said: |said| said,
    refused: |_, _, number| number,
};

impl Wrong {
    /// The state that is taken for the one given.
    fn taken(&self, state: &State) -> Result<Member, u8> {
        let taken = (self.taken)(Member::from_bytes(*state));
        taken.ok_or(Refusal::State.number())
    }
}

impl Machine for Wrong {
    fn open(&self, n: usize, t: usize, own: usize, vote: u8) -> Result<State, u8> {
        let opened = Member::open(n, t, (self.own)(own, n), vote);
        let mut member = opened.map_err(Refusal::number)?;
        member.silent = (self.opened)(&member);
        Ok(member.to_bytes())
    }

    fn say(&self, state: &State) -> Result<u8, u8> {
        let taken = self.taken(state)?.to_bytes();
        (self.said)(ByReference.say(&taken))
    }

    fn hear(&self, state: &mut State, row: &[u8]) -> Result<(), u8> {
        let before = self.taken(state)?;
        match before.hear(row) {
            Err(refusal) => Err((self.refused)(state, row, refusal.number())),
            Ok(_) => {
                *state = (self.hear)(&before, row).to_bytes();
                Ok(())
            }
        }
    }
}

/// A refused hearing lets the round grow.
pub fn round_grows(state: &mut State, _: &[u8], number: u8) -> u8 {
    if number == 17 {
        state[3] += 1;
    }
    number
}

/// The row's length is asked before "stopped".
pub fn length_first(state: &mut State, row: &[u8], number: u8) -> u8 {
    match number {
        12 if row.len() != usize::from(state[0]) => 13,
        _ => number,
    }
}

/// "Not both 3 and 4" is asked before "none in rounds 1 and 2".
pub fn both_first(_: &mut State, row: &[u8], number: u8) -> u8 {
    match number {
        16 if row.contains(&DECIDED_0) && row.contains(&DECIDED_1) => 17,
        _ => number,
    }
}

#[cfg(test)]
mod tests {
    use super::*;

    /// A crash: the process, its crash round, and its reach.
    type Crash = (usize, u8, Set);

    /// The crashes of the marked schedules D, E and I, and those of H and J with reaches.
    const D: &[Crash] = &[(1, 1, 0b0010)];
    const E: &[Crash] = &[(1, 1, 0b0110), (4, 2, 0b0010), (2, 3, 0)];
    const H: &[Crash] = &[(1, 3, 0b0110)];
    const I: &[Crash] = &[(1, 2, 0b1110)];
    const J: &[Crash] = &[(1, 4, 0b1110)];

    /// The counts that each of the wrong turns gives, in their order; n = 4, t = 3, all votes 1.
    fn changed<const N: usize>(turns: [(&str, Change); N], crashes: &[Crash]) -> [Counts; N] {
        let mut schedule = Schedule::quiet(4, 3);
        for (i, round, reach) in crashes {
            schedule.crashes[i - 1] = *round;
            schedule.reaches[i - 1] = *reach;
        }
        turns.map(|(_, change)| changed_run(&schedule, Member::after, change).counts)
    }

    fn messages(crashes: &[Crash]) -> [usize; 4] {
        changed(COUNTS, crashes).map(|counts| counts.messages)
    }

    fn firsts(crashes: &[Crash]) -> [usize; 7] {
        changed(FIRSTS, crashes).map(|counts| counts.first)
    }

    /// The first of each is the count that document 01 gave, before K1; H there reaches nobody, and 44 + 2 is 46.
    #[test]
    fn wrong_turns_of_counting() {
        assert_eq!(messages(&[]), [48, 24, 36, 36]);
        assert_eq!(messages(D), [49, 25, 39, 37]);
        assert_eq!(messages(E), [31, 17, 30, 24]);
        assert_eq!(messages(H), [46, 24, 36, 35]);
        assert_eq!(messages(I), [43, 23, 33, 33]);
        assert_eq!(messages(J), [48, 24, 36, 39]);
    }

    /// The right first deciders are 1, 2, 2, 2, 3, 1 and 1.
    #[test]
    fn wrong_orders_of_the_first_decider() {
        assert_eq!(firsts(&[]), [1, 1, 1, 1, 1, 1, 4]);
        assert_eq!(firsts(D), [2, 2, 2, 2, 2, 2, 4]);
        assert_eq!(firsts(H), [1, 1, 2, 2, 2, 2, 4]);
        assert_eq!(firsts(J), [1, 1, 2, 2, 1, 2, 4]);
        // Process 3 decides in round 2, and the survivors 1 and 2 in round 3.
        let smaller_round = [(4, 2, 0b0100), (3, 3, 0)];
        assert_eq!(firsts(&smaller_round), [3, 3, 3, 3, 3, 1, 3]);
        // Processes 1 and 2 decide in round 2, and the survivor 4 in round 3.
        let later_and_sooner = [(3, 2, 0b0011), (1, 4, 0), (2, 3, 0)];
        assert_eq!(firsts(&later_and_sooner), [1, 1, 2, 1, 1, 4, 2]);
        let sooner_and_later = [(3, 2, 0b0011), (1, 3, 0), (2, 4, 0)];
        assert_eq!(firsts(&sooner_and_later), [1, 1, 1, 2, 2, 4, 2]);
    }

    #[test]
    fn wrong_turns_of_f() {
        let fs = |crashes| changed(CRASHES, crashes).map(|counts| counts.f);
        assert_eq!(fs(&[]), [0, 4]);
        assert_eq!(fs(D), [1, 4]);
        assert_eq!(fs(E), [2, 4]);
    }

    /// The wrong rules of the crashes so far, those that say too much or put the settling round above round B and then
    /// the others.
    fn rules() -> impl Iterator<Item = Rule> {
        RULES.into_iter().chain(LOOSE).map(|(_, rule)| rule)
    }

    /// The settling round that each of the wrong rules gives, in their order, with t = 6. The right rule asks for 1, 2,
    /// 3, 4 crashes by rounds 2 to 5, and for 6 by round 6.
    #[test]
    fn wrong_rules_of_the_crashes_so_far() {
        let rounds = |crashes| -> Vec<usize> { rules().map(|r| r.round(6, crashes)).collect() };
        // No crash: right is 2, and so is B. The fifth asks for none in round 2, and for one in round 3.
        assert_eq!(rounds(&[0; 8]), [2, 2, 2, 2, 3, 2, 2]);
        // One crash by each round: right is 3, and so is B.
        assert_eq!(rounds(&[2, 0, 0, 0, 0, 0, 0, 0]), [2, 2, 3, 3, 4, 3, 3]);
        // By rounds 2 to 6: 1, 2, 3, 4, 5. Right is 6, and so is B.
        assert_eq!(rounds(&[2, 3, 4, 5, 6, 0, 0, 0]), [2, 2, 6, 7, 6, 6, 6]);
        // By rounds 2 to 6: 1, 1, 4, 4, 4. Right is 3, and B is 6.
        assert_eq!(rounds(&[1, 4, 4, 4, 0, 0, 0, 0]), [2, 3, 3, 3, 6, 6, 6]);
        // Six crashes by each round: right is 7, and so is B.
        assert_eq!(rounds(&[1, 1, 1, 1, 1, 1, 0, 0]), [7, 7, 6, 7, 7, 7, 7]);
    }

    /// The places of the wrong rules that let a run pass in which a process decides late; the right rule doesn't.
    fn let_pass(schedule: &Schedule, i: usize, round: u8) -> Vec<usize> {
        let mut run = play(schedule, Member::after);
        assert_eq!(RULE.check(schedule, &run), Ok(()));
        run.rounds[i - 1] = round;
        assert!(RULE.check(schedule, &run).is_err());
        let passed = rules().map(|rule| rule.check(schedule, &run).is_ok());
        let of_place = passed.enumerate().filter(|(_, passed)| *passed);
        of_place.map(|(place, _)| place).collect()
    }

    /// All four rules that say too little.
    #[test]
    fn wrong_rules_that_let_a_wrong_run_pass() {
        // Two crashes by round 3 = t, and a third in round 4. B is 4.
        let mut schedule = Schedule::quiet(5, 3);
        schedule.crashes = vec![1, 0, 0, 2, 4];
        schedule.reaches[0] = 0b11110;
        assert_eq!(let_pass(&schedule, 3, 4), [3, 5, 6]);
        // One crash by round 3, and three in round 4. B is 6.
        let mut schedule = Schedule::quiet(8, 6);
        schedule.crashes[..4].copy_from_slice(&[1, 4, 4, 4]);
        schedule.reaches[0] = 0b1111_1110;
        assert_eq!(let_pass(&schedule, 8, 4), [4, 5, 6]);
    }

    /// The count and the last process looked at of each of the wrong counts, in their order; (7, 7) for refusal 7.
    fn ends(t: usize, crashes: &[u8]) -> [(usize, usize); 22] {
        ENDS.map(|(_, count)| match count(t, crashes) {
            Ok(counted) => (counted.count, counted.looked_at),
            Err(number) => (number.into(), number.into()),
        })
    }

    /// The places of the wrong counts that differ from the right one, each with what it gives.
    fn wrong_ends(t: usize, crashes: &[u8], right: (usize, usize)) -> Vec<(usize, (usize, usize))> {
        let of_place = ends(t, crashes).into_iter().enumerate();
        of_place.filter(|(_, found)| *found != right).collect()
    }

    #[test]
    fn wrong_counts_of_crashes() {
        // Processes 2, 3 and 5 crash. With t = 1 the count ends at process 3.
        let crashes = [0, 1, 3, 0, 255, 0];
        let expected = [
            (0, (1, 2)),
            (1, (3, 5)),
            (2, (3, 6)),
            (3, (1, 2)),
            (5, (2, 2)),
            (6, (2, 4)),
            (7, (2, 6)),
            (8, (3, 3)),
            (9, (1, 3)),
            (13, (1, 6)),
            (14, (1, 6)),
            (19, (7, 7)),
        ];
        assert_eq!(wrong_ends(1, &crashes, (2, 3)), expected);
        // With t = 3 no crash is too many.
        let expected = [
            (0, (3, 5)),
            (3, (1, 2)),
            (10, (3, 7)),
            (11, (3, 5)),
            (13, (1, 6)),
            (14, (2, 6)),
            (15, (2, 6)),
        ];
        assert_eq!(wrong_ends(3, &crashes, (3, 6)), expected);
        // The largest t, an empty table, and one process more than in the largest cluster.
        let expected = [(10, (0, 1)), (12, (0, 1))];
        assert_eq!(wrong_ends(usize::MAX, &[], (0, 0)), expected);
        let all = LARGEST + 1;
        let expected = [
            (3, (1, 1)),
            (4, (0, 0)),
            (10, (all, all + 1)),
            (18, (LARGEST, LARGEST)),
        ];
        assert_eq!(
            wrong_ends(usize::MAX, &[1; LARGEST + 1], (all, all)),
            expected
        );
        // A t whose last four bytes are 0, and one whose last byte is 0.
        let expected = [(3, (1, 1)), (10, (2, 3)), (16, (1, 1)), (17, (1, 1))];
        assert_eq!(wrong_ends(1 << 32, &[1, 1], (2, 2)), expected);
        let expected = [(3, (1, 1)), (10, (2, 3)), (16, (1, 1))];
        assert_eq!(wrong_ends(1 << 8, &[1, 1], (2, 2)), expected);
        // The count ends at process 257.
        assert_eq!(ends(256, &[1; 258])[20..], [(1, 257), (257, 1)]);
    }
}
