//! Why a process decided: the first rule that its row met in the round in which it decided, or its crash round.
use std::collections::BTreeSet;

use fcwfa::bytes::{self, WHY_KIND, WHY_NUMBER};
use fcwfa::Why::{Crashed, LastRound, Quiet, RoundT, Told, ZerosOnly};
use fcwfa::{why, Code, Member, Processes, Refusal, Schedule, Set, Vote, Why, LARGEST};

/// A text of `schedules/` by its name.
macro_rules! text {
    ($name:literal) => {
        include_str!(concat!("../../../schedules/", $name, ".text"))
    };
}

/// The rule of each process of a text.
fn rules(text: &str) -> Vec<Why> {
    let schedule: Schedule = text.parse().unwrap();
    let why_of = |id| schedule.why(id).unwrap();
    (1..=schedule.n()).map(why_of).collect()
}

/// The cases of document 01, worked by hand from its rules.
#[test]
fn the_marked_schedules_have_these_rules() {
    let crashed = |round| Crashed { round };
    let (quiet, two, three) = (
        Quiet { missing: 0 },
        RoundT { estimates: 2 },
        RoundT { estimates: 3 },
    );
    let marked: [(&str, [Why; 4]); 11] = [
        (text!("case_a"), [quiet; 4]),
        (text!("case_b"), [ZerosOnly; 4]),
        (
            text!("case_c"),
            [crashed(1), ZerosOnly, ZerosOnly, ZerosOnly],
        ),
        (text!("case_d"), [crashed(1), three, three, three]),
        (
            text!("case_e"),
            [crashed(1), crashed(3), LastRound, crashed(2)],
        ),
        (text!("case_f"), [crashed(1), crashed(3), two, crashed(2)]),
        (text!("case_g"), [crashed(1), two, two, crashed(2)]),
        (text!("case_h"), [quiet; 4]),
        (text!("case_i"), [crashed(2), quiet, quiet, quiet]),
        (text!("case_j"), [quiet; 4]),
        (
            text!("case_k"),
            [crashed(1), crashed(1), crashed(1), ZerosOnly],
        ),
    ];
    for (text, expected) in marked {
        assert_eq!(rules(text), expected, "{text}");
    }
}

/// Processes 2, 3 and 4 of six decide in round 2 and say so in round 3, where 2 crashes and reaches 5 alone. So 5 is told by 2, and 1 by 3.
#[test]
fn the_lowest_sender_that_is_heard_is_named() {
    let quiet = Quiet { missing: 0 };
    assert_eq!(
        rules(text!(
            "accepted_first_crashes_soonest_of_those_of_its_round"
        )),
        [
            Told { sender: 3 },
            quiet,
            quiet,
            quiet,
            Told { sender: 2 },
            Crashed { round: 2 }
        ]
    );
}

/// Processes 1, 2 and 3 decide in round 3, one of them told by 4, whose last message the others miss.
#[test]
fn processes_decide_in_one_round_by_two_rules() {
    let three = RoundT { estimates: 3 };
    assert_eq!(
        rules(text!("accepted_two_rules_in_one_round")),
        [
            Told { sender: 4 },
            three,
            three,
            Quiet { missing: 0 },
            Crashed { round: 2 }
        ]
    );
}

/// The row by which each process decides, with its round, as members that play the schedule hear it.
fn deciding_rows(schedule: &Schedule) -> Vec<Option<(usize, Vec<Code>)>> {
    let (n, t, crashes) = (schedule.n(), schedule.t(), schedule.crashes());
    let open = |id| Member::open(n, t, id, schedule.votes()[id - 1]).unwrap();
    let mut members: Vec<Member> = (1..=n).map(open).collect();
    let mut deciding = vec![None; n];
    for round in 1..=t + 1 {
        let completes = |id: usize| match usize::from(crashes[id - 1]) {
            0 => true,
            crash => crash > round,
        };
        let arrives = |from: usize, to: usize| {
            let crashes_now = usize::from(crashes[from - 1]) == round;
            completes(from) || crashes_now && schedule.reaches()[from - 1] >> (to - 1) & 1 == 1
        };
        let said: Vec<Code> = members.iter().map(Member::say).collect();
        for id in (1..=n).filter(|&id| completes(id)) {
            let member = &mut members[id - 1];
            if member.is_stopped() {
                continue;
            }
            let arrives = |from| arrives(from, id);
            let heard = |(from, &code)| if arrives(from) { code } else { Code::Nothing };
            let row: Vec<Code> = (1..).zip(&said).map(heard).collect();
            let before = member.decision();
            assert_eq!(member.hear(&row), Ok(()));
            if before.is_none() && member.decision().is_some() {
                deciding[id - 1] = Some((round, row));
            }
        }
    }
    deciding
}

/// The first rule of document 01 that a row of this round meets.
fn first_met(n: usize, t: usize, round: usize, row: &[Code]) -> Option<Why> {
    let count = |code| row.iter().filter(|&&heard| heard == code).count();
    let ones = count(Code::EstimateCommit);
    let estimates = ones + count(Code::EstimateAbort);
    let told = row.iter().position(|code| code.decision().is_some());
    match told {
        Some(place) => Some(Told { sender: place + 1 }),
        None if round == 2 && ones == 0 => Some(ZerosOnly),
        None if round < t && n - estimates <= round - 2 => Some(Quiet {
            missing: n - estimates,
        }),
        None if round == t && estimates > n - t => Some(RoundT { estimates }),
        None if round == t + 1 => Some(LastRound),
        None => None,
    }
}

/// The two numbers of the header for a rule.
fn numbers(why: Why) -> [usize; 2] {
    match why {
        Crashed { round } => [0, round],
        Told { sender } => [1, sender],
        ZerosOnly => [2, 0],
        Quiet { missing } => [3, missing],
        RoundT { estimates } => [4, estimates],
        LastRound => [5, 0],
    }
}

/// Compares the rules of a schedule with the rows that its members hear, with its run, and with the call on bare bytes.
fn compare(schedule: &Schedule) -> Vec<Why> {
    let (n, t, decisions) = (schedule.n(), schedule.t(), schedule.simulate().decisions);
    let votes: Vec<u8> = schedule.votes().iter().copied().map(u8::from).collect();
    let (crashes, reaches) = (schedule.crashes(), schedule.reaches());
    let mut rules = Vec::new();
    for (id, deciding) in (1..).zip(deciding_rows(schedule)) {
        let made = schedule.why(id).unwrap();
        let due = match deciding {
            Some((round, row)) => first_met(n, t, round, &row).expect("a rule is met"),
            None => Crashed {
                round: crashes[id - 1].into(),
            },
        };
        assert_eq!(made, due, "process {id} of\n{schedule}");
        match (decisions[id - 1], made) {
            (None, Crashed { round }) => assert_ne!(round, 0, "process {id} of\n{schedule}"),
            (Some(decided), Told { sender }) => {
                // The sender decided the same in the round before.
                let mut earlier = decided;
                earlier.round -= 1;
                assert_eq!(decisions[sender - 1], Some(earlier), "{schedule}");
                assert_ne!(sender, id, "{schedule}");
            }
            (decided, made) => assert_eq!(
                decided.is_none(),
                matches!(made, Crashed { .. }),
                "process {id} of\n{schedule}"
            ),
        }
        let mut written = [9; 2];
        let answer = bytes::why(n, t, &votes, crashes, reaches, id, &mut written);
        assert_eq!(answer, Ok(()), "{schedule}");
        assert_eq!(written, numbers(made), "process {id} of\n{schedule}");
        rules.push(made);
    }
    rules
}

/// Every crash of process `id` of four, and none: its round and its reach.
fn crashes_of(id: usize) -> impl Iterator<Item = (u8, Set)> {
    let others = (0..16).filter(move |&reach| !Processes::from(reach).contains(id));
    let crashes = (1..=4).flat_map(move |round| others.clone().map(move |reach| (round, reach)));
    crashes.chain([(0, 0)])
}

/// The votes of four processes, one for each bit.
fn votes_of(bits: u8) -> [Vote; 4] {
    [0, 1, 2, 3].map(|place| Vote::try_from(bits >> place & 1).unwrap())
}

/// Processes 1 and 4 of four crash in all ways, under all votes. At n = 4 and t = 3 the only quiet round is round 2, without anybody missing.
#[test]
fn the_rules_are_those_of_the_rows_in_all_of_two_crashes() {
    let mut seen = BTreeSet::new();
    for (one, four) in crashes_of(1).flat_map(|one| crashes_of(4).map(move |four| (one, four))) {
        let (crashes, reaches) = ([one.0, 0, 0, four.0], [one.1, 0, 0, four.1]);
        for votes in (0..16).map(votes_of) {
            let schedule = Schedule::new(4, 3, &votes, &crashes, &reaches).unwrap();
            seen.extend(compare(&schedule).into_iter().map(numbers));
        }
    }
    let crashed = [[0, 1], [0, 2], [0, 3]];
    let told = [[1, 1], [1, 2], [1, 3], [1, 4]];
    let others = [[2, 0], [3, 0], [4, 2], [4, 3]];
    let due = crashed.into_iter().chain(told).chain(others);
    assert_eq!(seen, due.collect());
}

/// A chain of crashes that is meant to delay the decision, one in each round: process 1 reaches all but process n, process n process 2 alone,
/// process 2 process 3 alone, and so on. The last one reaches nobody if it is not `heard`.
fn chain(n: usize, t: usize, length: usize, heard: bool) -> Schedule {
    let (mut crashes, mut reaches) = (vec![0; n], vec![0; n]);
    let everybody = Set::MAX >> (LARGEST - n);
    for (round, id) in (1..=length).zip([1, n].into_iter().chain(2..n)) {
        crashes[id - 1] = round as u8;
        reaches[id - 1] = match round {
            _ if round == length && !heard => 0,
            1 => everybody & !(1 | 1 << (n - 1)),
            _ => 1 << (round - 1),
        };
    }
    Schedule::new(n, t, &vec![Vote::Commit; n], &crashes, &reaches).unwrap()
}

/// Chains of every length in clusters of several sizes, the largest among them: every crash round below the last, and quiet rounds with any
/// number of missing estimates, come up.
#[test]
fn the_rules_are_those_of_the_rows_in_chains_of_crashes() {
    let mut seen = BTreeSet::new();
    for n in (4..=LARGEST).step_by(12) {
        for length in 0..n {
            let (t, largest) = (length.max(3), n - 1);
            for (t, heard) in [(t, false), (t, true), (largest, true)] {
                let rules = compare(&chain(n, t, length, heard));
                seen.extend(rules.into_iter().map(numbers));
            }
        }
    }
    let numbers_of = |kind| seen.iter().filter(move |why| why[WHY_KIND] == kind);
    let crashed = numbers_of(0).map(|why| why[WHY_NUMBER]);
    assert!(crashed.eq(1..LARGEST));
    let missing = numbers_of(3).map(|why| why[WHY_NUMBER]);
    assert!(missing.eq(0..=LARGEST - 4));
    assert!([[1, 3], [2, 0], [4, 2], [5, 0]]
        .iter()
        .all(|why| seen.contains(why)));
}

/// Numbers without an order to see, the same in every run.
struct Mixed(u64);

impl Mixed {
    fn next(&mut self) -> u64 {
        self.0 = self.0.wrapping_add(0x9e37_79b9_7f4a_7c15);
        let mixed = (self.0 ^ self.0 >> 30).wrapping_mul(0xbf58_476d_1ce4_e5b9);
        mixed ^ mixed >> 31
    }

    /// A number from 0 to `most`.
    fn up_to(&mut self, most: usize) -> usize {
        (self.next() % (most as u64 + 1)) as usize
    }

    /// A schedule of n processes. Half of them have all votes for commit, and half have their crashes in the first three rounds.
    fn schedule(&mut self, n: usize) -> Schedule {
        let t = 3 + self.up_to(n - 4);
        let mut votes = vec![Vote::Commit; n];
        if self.up_to(1) == 0 {
            votes[self.up_to(n - 1)] = Vote::Abort;
        }
        let latest = if self.up_to(1) == 0 { 3 } else { t + 1 };
        let everybody = Set::MAX >> (LARGEST - n);
        let (mut crashes, mut reaches) = (vec![0; n], vec![0; n]);
        for _ in 0..self.up_to(t) {
            let place = self.up_to(n - 1);
            crashes[place] = 1 + self.up_to(latest - 1) as u8;
            reaches[place] = self.next() & everybody & !(1 << place);
        }
        Schedule::new(n, t, &votes, &crashes, &reaches).unwrap()
    }
}

#[test]
fn the_rules_are_those_of_the_rows_in_mixed_schedules() {
    let (mut mixed, mut kinds) = (Mixed(9), BTreeSet::new());
    for n in 4..=LARGEST {
        for _ in 0..20 {
            let rules = compare(&mixed.schedule(n));
            kinds.extend(rules.into_iter().map(|why| numbers(why)[WHY_KIND]));
        }
    }
    assert_eq!(kinds, BTreeSet::from([0, 1, 2, 3, 4, 5]));
}

#[test]
fn a_schedule_that_breaks_a_rule_has_no_rules() {
    let votes = [Vote::Commit; 4];
    let made = |n, t, crashes: &[u8], reaches: &[Set], id| why(n, t, &votes, crashes, reaches, id);
    assert_eq!(made(3, 3, &[0; 4], &[0; 4], 1), Err(Refusal::N));
    assert_eq!(made(usize::MAX, 3, &[0; 4], &[0; 4], 1), Err(Refusal::N));
    assert_eq!(made(4, 4, &[0; 4], &[0; 4], 1), Err(Refusal::T));
    assert_eq!(made(5, 4, &[0; 5], &[0; 5], 1), Err(Refusal::Length));
    assert_eq!(made(4, 3, &[0; 3], &[0; 4], 1), Err(Refusal::Length));
    assert_eq!(made(4, 3, &[0; 4], &[0; 5], 1), Err(Refusal::Length));
    assert_eq!(made(4, 3, &[5; 4], &[9; 4], 1), Err(Refusal::Crash));
    assert_eq!(made(4, 3, &[1; 4], &[1; 4], 1), Err(Refusal::Reach));
    assert_eq!(made(4, 3, &[1; 4], &[0; 4], 1), Err(Refusal::Crashes));
    for id in [0, 5, 256 + 1, usize::MAX] {
        assert_eq!(made(4, 3, &[0; 4], &[0; 4], id), Err(Refusal::Id));
        assert_eq!(made(4, 3, &[1; 4], &[0; 4], id), Err(Refusal::Crashes));
    }
    let late = made(4, 3, &[4, 0, 0, 0], &[0; 4], 1);
    assert_eq!(
        late.map(|made| made.to_string()).as_deref(),
        Ok("a quiet round with 0 estimates missing")
    );
}

/// Of an accepted schedule only the number of a process can be refused.
#[test]
fn a_schedule_has_a_rule_for_each_of_its_processes_and_for_nobody_else() {
    for n in [4, 33, LARGEST] {
        let schedule = chain(n, 3, 3, true);
        for id in 1..=n {
            assert!(schedule.why(id).is_ok(), "process {id} of\n{schedule}");
        }
        for id in [0, n + 1, 256 + n, usize::MAX] {
            assert_eq!(schedule.why(id), Err(Refusal::Id), "{id} of {n}");
        }
    }
}

/// Each question is asked before those after it, and those of a process before those of the next; the number of the process is asked last.
#[test]
fn a_refused_call_leaves_the_two_numbers_as_they_were() {
    const LARGER: usize = LARGEST + 1;
    let mut written = [9, usize::MAX];
    let mut made = |n, t, votes: &[u8], crashes: &[u8], reaches: &[Set], id| {
        bytes::why(n, t, votes, crashes, reaches, id, &mut written)
    };
    for id in [0, 1, 4, LARGER, usize::MAX] {
        assert_eq!(made(usize::MAX, 0, &[], &[], &[], id), Err(1));
        assert_eq!(
            made(LARGER, 3, &[1; LARGER], &[0; LARGER], &[0; LARGER], id),
            Err(1)
        );
        assert_eq!(made(3, 3, &[2; 3], &[9; 3], &[9; 3], id), Err(1));
        assert_eq!(made(4, 2, &[], &[], &[], id), Err(2));
        assert_eq!(made(4, 4, &[], &[], &[], id), Err(2));
        assert_eq!(made(4, 3, &[], &[], &[], id), Err(3));
        assert_eq!(made(4, 3, &[2; 3], &[9; 4], &[9; 4], id), Err(3));
        assert_eq!(made(4, 3, &[2; 4], &[9; 5], &[9; 4], id), Err(3));
        assert_eq!(made(4, 3, &[2; 4], &[9; 4], &[9; 3], id), Err(3));
        assert_eq!(made(4, 3, &[2; 4], &[9; 4], &[9; 4], id), Err(4));
        assert_eq!(made(4, 3, &[1; 4], &[5; 4], &[9; 4], id), Err(5));
        assert_eq!(made(4, 3, &[1; 4], &[1; 4], &[1; 4], id), Err(6));
        assert_eq!(made(4, 3, &[1; 4], &[0; 4], &[16, 0, 0, 0], id), Err(6));
        assert_eq!(made(4, 3, &[1; 4], &[1; 4], &[0; 4], id), Err(7));
        let (late, reaching) = ([5, 0, 0, 0], [2, 0, 0, 0]);
        assert_eq!(made(4, 3, &[1, 2, 1, 1], &late, &[0; 4], id), Err(5));
        assert_eq!(made(4, 3, &[1, 2, 1, 1], &[0; 4], &reaching, id), Err(6));
    }
    for id in [0, 5, LARGEST, 256 + 1, usize::MAX] {
        assert_eq!(made(4, 3, &[1; 4], &[0; 4], &[0; 4], id), Err(10));
        assert_eq!(made(4, 3, &[1; 4], &[1, 1, 1, 0], &[0; 4], id), Err(10));
    }
    assert_eq!(written, [9, usize::MAX]);
}

/// What is written where: in case D process 1 crashed in round 1, and process 2 heard three estimates in round t.
#[test]
fn the_kind_and_the_number_have_their_places() {
    let mut written = [9; 2];
    let (crashes, reaches) = ([1, 0, 0, 0], [0b0010, 0, 0, 0]);
    let answer = bytes::why(4, 3, &[1; 4], &crashes, &reaches, 2, &mut written);
    assert_eq!(answer, Ok(()));
    assert_eq!((written[WHY_KIND], written[WHY_NUMBER]), (4, 3));
}

#[test]
fn rules_print_as_words() {
    let words = [
        (Crashed { round: 1 }, "crashed in round 1"),
        (Told { sender: 3 }, "told by process 3"),
        (ZerosOnly, "zeros only in round 2"),
        (
            Quiet { missing: 0 },
            "a quiet round with 0 estimates missing",
        ),
        (
            Quiet { missing: 1 },
            "a quiet round with 1 estimate missing",
        ),
        (RoundT { estimates: 3 }, "3 estimates in round t"),
        (LastRound, "the last round"),
    ];
    for (why, words) in words {
        assert_eq!(why.to_string(), words);
    }
}

/// The header has the same kinds, with the same names in its own spelling.
#[test]
fn the_kinds_are_those_of_the_header() {
    let header = include_str!("../../fcwfa.h");
    let kinds = [
        ("CRASHED", Crashed { round: 1 }),
        ("TOLD", Told { sender: 1 }),
        ("ZEROS_ONLY", ZerosOnly),
        ("QUIET", Quiet { missing: 0 }),
        ("ROUND_T", RoundT { estimates: 2 }),
        ("LAST_ROUND", LastRound),
    ];
    for (name, why) in kinds {
        let kind = numbers(why)[WHY_KIND];
        assert!(header.contains(&format!("#define FCWFA_{name} {kind}\n")));
        let spelled = name.replace('_', "").to_lowercase();
        assert!(format!("{why:?}").to_lowercase().starts_with(&spelled));
    }
}
