//! The types against the numbers that they stand for.
use std::collections::BTreeSet;
use std::mem::size_of;

use fcwfa::bytes::{self, NO_DECISION};
use fcwfa::{simulate, Code, Decided, Decision, Member, Processes, Refusal, Set, Vote};
use fcwfa::{LARGEST, LONGEST_TEXT, LONGEST_WRITTEN};

/// Bytes that are no state are refused, so nothing that a member shows is out of range.
#[test]
fn bytes_that_are_no_state_are_refused() {
    let no_round = [4, 3, 1, 200, 7, 9, 0, 0, 0, 0, 0, 0, 0, 0];
    for bytes in [no_round, [0; 14], [9; 14], [255; 14]] {
        assert_eq!(Member::from_bytes(bytes), Err(Refusal::State), "{bytes:?}");
    }
}

/// Whether these four bytes, with this silent set, make a state in range with n = 4 and t = 3, as documents 01 and 02 have it.
fn in_range([id, round, estimate, decided]: [u8; 4], silent: Set) -> bool {
    let rounds = match decided {
        0 => (1..=4).contains(&round),
        2..=4 => (decided + 1..=decided + 2).contains(&round) && round <= 5,
        _ => false,
    };
    let others = silent < 1 << 4 && !Processes::from(silent).contains(id.into());
    rounds && (1..=4).contains(&id) && estimate <= 1 && others
}

/// Silent sets of interest with n = 4: all sets of processes 1 to 5, and one process of each further byte.
fn sets() -> impl Iterator<Item = Set> + Clone {
    (0..1 << 5).chain((1..8).map(|byte| 1 << (8 * byte)))
}

/// Every choice of four bytes that are small enough to be of interest with n = 4 and t = 3.
fn small() -> impl Iterator<Item = [u8; 4]> {
    let pairs = (0..=8).flat_map(|id| (0..=8).map(move |round| (id, round)));
    let more = || (0..=3).flat_map(|estimate| (0..=8).map(move |decided| (estimate, decided)));
    pairs.flat_map(move |(id, round)| {
        more().map(move |(estimate, decided)| [id, round, estimate, decided])
    })
}

#[test]
fn exactly_the_states_in_range_are_members() {
    let mut accepted = 0;
    for (rest, silent) in small().flat_map(|rest| sets().map(move |silent| (rest, silent))) {
        let [id, round, estimate, decided] = rest;
        let mut state = [4, 3, id, round, estimate, decided, 0, 0, 0, 0, 0, 0, 0, 0];
        state[6..].copy_from_slice(&silent.to_le_bytes());
        let member = match Member::from_bytes(state) {
            Err(refusal) => {
                assert!(!in_range(rest, silent), "{state:?}");
                assert_eq!(refusal, Refusal::State);
                continue;
            }
            Ok(member) => member,
        };
        assert!(in_range(rest, silent), "{state:?}");
        accepted += 1;
        assert_eq!(member.to_bytes(), state);
        assert_eq!(bytes::say(&state), Ok(member.say().into()));
        let shown = [member.n(), member.t(), member.id(), member.round()];
        assert_eq!(shown, [4, 3, id.into(), round.into()]);
        assert_eq!(u8::from(member.estimate()), estimate);
        let round = member.decision().map(|made| made.round);
        assert_eq!(round.unwrap_or(0), decided.into());
        assert_eq!(member.silent().bits(), silent);
    }
    // Four numbers and two estimates, with four rounds undecided, and two after a decision in 2 or 3 and one after 4, and the sets of the three others.
    assert_eq!(accepted, 4 * 2 * (4 + 2 + 2 + 1) * 8);
}

/// Runs in which process 3 crashes in round 2 and process 1 in any round, with any reach, among more that are refused.
#[test]
fn a_report_has_the_numbers_of_the_call_on_bytes() {
    for (crash, reach) in (0..=5).flat_map(|crash| (0..=16).map(move |reach| (crash, reach))) {
        let (crashes, reaches) = ([crash, 0, 2, 0], [reach, 0, 0b1000, 0]);
        let (mut decisions, mut rounds) = ([9; 4], [9; 4]);
        let (d, r) = (&mut decisions, &mut rounds);
        let counts = bytes::simulate(4, 3, &[1; 4], &crashes, &reaches, d, r);
        let report = match simulate(4, 3, &[Vote::Commit; 4], &crashes, &reaches) {
            Ok(report) => report,
            Err(refusal) => {
                assert_eq!(counts, Err(refusal.number()));
                continue;
            }
        };
        assert_eq!(counts, Ok(report.counts));
        let numbers = |made: &Option<Decided>| match made {
            None => (NO_DECISION, 0),
            Some(made) => (made.decision.into(), made.round),
        };
        let reported: Vec<(u8, usize)> = report.decisions.iter().map(numbers).collect();
        let written = decisions.into_iter().zip(rounds.map(usize::from));
        assert_eq!(reported, written.collect::<Vec<(u8, usize)>>());
    }
}

#[test]
fn bytes_go_to_types_and_back() {
    for byte in 0..=255 {
        match Vote::try_from(byte) {
            Ok(vote) => assert!(byte <= 1 && u8::from(vote) == byte),
            Err(refusal) => assert!(byte > 1 && refusal == Refusal::Vote),
        }
        match Code::try_from(byte) {
            Ok(code) => assert!(byte <= 4 && u8::from(code) == byte),
            Err(refusal) => assert!(byte > 4 && refusal == Refusal::Code),
        }
        if let Some(refusal) = Refusal::from_number(byte) {
            assert_eq!(refusal.number(), byte);
        }
    }
    assert_eq!([Decision::Abort, Decision::Commit].map(u8::from), [0, 1]);
}

/// All refusals, in the order of their numbers.
fn refusals() -> Vec<Refusal> {
    (0..=255).filter_map(Refusal::from_number).collect()
}

/// Header and crate are of one version, of one size of clusters, of states and of texts, and have one order of what is read, of an outcome and
/// of why a process decided.
#[test]
fn the_header_is_of_this_version() {
    let header = include_str!("../../fcwfa.h");
    let version = env!("CARGO_PKG_VERSION");
    assert!(header.contains(&format!("#define FCWFA_VERSION \"{version}\"\n")));
    assert!(header.contains(&format!("#define FCWFA_LARGEST_N {LARGEST}\n")));
    let bytes = size_of::<bytes::State>();
    assert!(header.contains(&format!("#define FCWFA_STATE_BYTES {bytes}\n")));
    assert!(header.contains(&format!("#define FCWFA_LONGEST_TEXT {LONGEST_TEXT}\n")));
    assert!(header.contains(&format!(
        "#define FCWFA_LONGEST_WRITTEN {LONGEST_WRITTEN}\n"
    )));
    let (n, t, line) = (bytes::READ_N, bytes::READ_T, bytes::READ_LINE);
    for (name, place) in [("N", n), ("T", t), ("LINE", line)] {
        assert!(header.contains(&format!("#define FCWFA_READ_{name} {place}\n")));
    }
    let (decision, round) = (bytes::OUTCOME_DECISION, bytes::OUTCOME_ROUND);
    for (name, place) in [("DECISION", decision), ("ROUND", round)] {
        assert!(header.contains(&format!("#define FCWFA_OUTCOME_{name} {place}\n")));
    }
    for (name, place) in [("KIND", bytes::WHY_KIND), ("NUMBER", bytes::WHY_NUMBER)] {
        assert!(header.contains(&format!("#define FCWFA_WHY_{name} {place}\n")));
    }
}

/// The header has the same numbers, with the same names in its own spelling.
#[test]
fn there_is_a_refusal_for_every_number_of_the_header() {
    let header = include_str!("../../fcwfa.h");
    let names: BTreeSet<(u8, String)> = header
        .lines()
        .filter_map(|line| line.strip_prefix("#define FCWFA_REFUSED_"))
        .filter_map(|line| line.split_once(' '))
        .map(|(name, number)| (number.trim().parse().unwrap(), name.replace('_', "")))
        .collect();
    let known = refusals()
        .into_iter()
        .map(|refusal| (refusal.number(), format!("{refusal:?}").to_uppercase()));
    assert_eq!(names, known.collect());
}

#[test]
fn the_words_of_a_refusal_have_its_number_and_are_its_own() {
    let mut words = BTreeSet::new();
    for refusal in refusals() {
        let printed = refusal.to_string();
        let start = format!("refused with {}: ", refusal.number());
        let meaning = printed.strip_prefix(&start).expect("the number is printed");
        assert!(
            !meaning.is_empty() && words.insert(meaning.to_string()),
            "{printed}"
        );
    }
    assert_eq!(
        Refusal::Crash.to_string(),
        "refused with 5: a crash round is above t + 1"
    );
    let largest = format!("to {LARGEST}");
    assert!(Refusal::N.to_string().ends_with(&largest));
}

#[test]
fn values_print_as_words() {
    let printed = [Vote::Abort, Vote::Commit].map(|vote| vote.to_string());
    assert_eq!(printed, ["abort", "commit"]);
    let made = Decided {
        decision: Decision::Commit,
        round: 2,
    };
    assert_eq!(made.to_string(), "commit in round 2");
    let words = [
        "nothing",
        "estimate abort",
        "estimate commit",
        "decided abort",
        "decided commit",
    ];
    for (byte, words) in (0..).zip(words) {
        assert_eq!(Code::try_from(byte).unwrap().to_string(), words);
    }
}

#[test]
fn a_decided_code_names_its_decision() {
    let decisions = [0, 1, 2, 3, 4].map(|byte| Code::try_from(byte).unwrap().decision());
    let made = [Some(Decision::Abort), Some(Decision::Commit)];
    assert_eq!(decisions, [None, None, None, made[0], made[1]]);
}
