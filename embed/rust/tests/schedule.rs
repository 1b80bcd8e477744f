//! Schedules as a program uses them: parsed from texts, displayed as texts, and run.
use std::collections::HashSet;
use std::fs;
use std::path::Path;

use fcwfa::{outcome, simulate, why, Decided, Refusal, Report, Schedule, Set, TextRefusal};
use fcwfa::{Vote, Why, LARGEST, LONGEST_TEXT, LONGEST_WRITTEN};

/// Case D: process 1 of four crashes in round 1 and reaches process 2 alone.
const CASE_D: &str = include_str!("../../../schedules/case_d.text");

/// Every text of `schedules/` with its name and its report, in which bytes of a refused line may be no letters.
fn texts() -> Vec<(String, Vec<u8>, String)> {
    let folder = Path::new(env!("CARGO_MANIFEST_DIR")).join("../../schedules");
    let mut texts = Vec::new();
    for entry in fs::read_dir(folder).unwrap() {
        let path = entry.unwrap().path();
        if path.extension().map_or(false, |ending| ending == "text") {
            let report = fs::read(path.with_extension("report")).unwrap();
            let report = String::from_utf8_lossy(&report).into_owned();
            let text = fs::read(&path).unwrap();
            texts.push((path.display().to_string(), text, report));
        }
    }
    texts
}

/// The refusal of a report, if it is one: the number and the line's stand on line 2.
fn refused(report: &str) -> Option<TextRefusal> {
    let rest = report.strip_prefix("refused line\n")?;
    let (number, line) = rest.lines().next()?.split_once(' ')?;
    Some(TextRefusal {
        refusal: Refusal::from_number(number.parse().ok()?)?,
        line: line.parse().ok()?,
    })
}

/// The report of a run as `bench` prints it.
fn printed(schedule: &Schedule, report: &Report) -> String {
    let (n, t, counts) = (schedule.n(), schedule.t(), report.counts);
    let (f, first, last) = (counts.f, counts.first, counts.last);
    let mut lines = format!(
        "n t f first last messages\n{n} {t} {f} {first} {last} {}\nid decision round\n",
        counts.messages
    );
    for (id, made) in (1..).zip(&report.decisions) {
        lines += &match made {
            None => format!("{id} - 0\n"),
            Some(Decided { decision, round }) => format!("{id} {} {round}\n", *decision as u8),
        };
    }
    lines
}

/// The outcome of a report: the decision and the round of a line with the smallest round above 0.
fn first_decided(report: &str) -> Option<(u8, usize)> {
    let made = report.lines().skip(3).filter_map(|line| {
        let mut fields = line.split(' ').skip(1);
        // `-` is no number
        let decision = fields.next()?.parse().ok()?;
        Some((decision, fields.next()?.parse().ok()?))
    });
    made.min_by_key(|&(_, round)| round)
}

/// Why each process decided, as `why` prints it.
fn printed_rules(schedule: &Schedule) -> String {
    let mut lines = "id rule number\n".to_string();
    for id in 1..=schedule.n() {
        lines += &match schedule.why(id).unwrap() {
            Why::Crashed { round } => format!("{id} crashed {round}\n"),
            Why::Told { sender } => format!("{id} told {sender}\n"),
            Why::ZerosOnly => format!("{id} zeros -\n"),
            Why::Quiet { missing } => format!("{id} quiet {missing}\n"),
            Why::RoundT { estimates } => format!("{id} round-t {estimates}\n"),
            Why::LastRound => format!("{id} last -\n"),
        };
    }
    lines
}

/// What is accepted displays as the same text, runs as reported, has the outcome of the report and the rules that stand beside it, where there
/// are any; what is refused is refused with the number and the line reported.
#[test]
fn every_text_is_read_as_reported() {
    let (mut accepted, mut explained, mut numbers) = (0, 0, HashSet::new());
    for (name, text, report) in texts() {
        let read = Schedule::from_bytes(&text);
        assert_eq!(Schedule::try_from(&text[..]), read, "{name}");
        match read {
            Ok(schedule) => {
                assert_eq!(schedule.to_string().into_bytes(), text, "{name}");
                assert_eq!(printed(&schedule, &schedule.simulate()), report, "{name}");
                let Decided { decision, round } = schedule.outcome();
                let outcome = Some((decision.into(), round));
                assert_eq!(outcome, first_decided(&report), "{name}");
                if let Ok(rules) = fs::read_to_string(Path::new(&name).with_extension("why")) {
                    assert_eq!(printed_rules(&schedule), rules, "{name}");
                    explained += 1;
                }
                accepted += 1;
            }
            Err(refusal) => {
                assert_eq!(Some(refusal), refused(&report), "{name}");
                numbers.insert(refusal.refusal.number());
            }
        }
    }
    assert!(accepted > 0, "some texts are accepted");
    assert!(explained >= 11, "the marked ones have their rules");
    assert_eq!(numbers, HashSet::from([1, 2, 4, 5, 6, 7, 8, 9]));
}

#[test]
fn a_schedule_shows_what_it_is() {
    let schedule: Schedule = CASE_D.parse().unwrap();
    assert_eq!((schedule.n(), schedule.t()), (4, 3));
    assert_eq!(schedule.votes(), [Vote::Commit; 4]);
    assert_eq!(schedule.crashes(), [1, 0, 0, 0]);
    assert_eq!(schedule.reaches(), [0b0010, 0, 0, 0]);
    let (n, t, votes) = (schedule.n(), schedule.t(), schedule.votes());
    let report = simulate(n, t, votes, schedule.crashes(), schedule.reaches());
    assert_eq!(report, Ok(schedule.simulate()));
    let made = outcome(n, t, votes, schedule.crashes(), schedule.reaches());
    assert_eq!(made, Ok(schedule.outcome()));
    for id in 0..=5 {
        let made = why(n, t, votes, schedule.crashes(), schedule.reaches(), id);
        assert_eq!(made, schedule.why(id));
    }
}

#[test]
fn tables_that_break_a_rule_make_no_schedule() {
    let votes = [Vote::Commit; 4];
    let made = |n, t, crashes: &[u8], reaches: &[Set]| {
        let schedule = Schedule::new(n, t, &votes, crashes, reaches);
        schedule.map(|schedule| schedule.to_string())
    };
    assert_eq!(made(3, 3, &[0; 4], &[0; 4]), Err(Refusal::N));
    assert_eq!(made(usize::MAX, 3, &[0; 4], &[0; 4]), Err(Refusal::N));
    assert_eq!(made(4, 4, &[0; 4], &[0; 4]), Err(Refusal::T));
    assert_eq!(made(5, 4, &[0; 5], &[0; 5]), Err(Refusal::Length));
    assert_eq!(made(4, 3, &[0; 3], &[0; 4]), Err(Refusal::Length));
    assert_eq!(made(4, 3, &[0; 4], &[0; 5]), Err(Refusal::Length));
    assert_eq!(made(4, 3, &[5; 4], &[9; 4]), Err(Refusal::Crash));
    assert_eq!(made(4, 3, &[1; 4], &[1; 4]), Err(Refusal::Reach));
    assert_eq!(made(4, 3, &[1; 4], &[0; 4]), Err(Refusal::Crashes));
    let case_d = made(4, 3, &[1, 0, 0, 0], &[0b0010, 0, 0, 0]);
    assert_eq!(case_d.as_deref(), Ok(CASE_D));
}

/// Tables with n processes, all of which but the last crash in the last round and reach all others that they may.
fn full(n: usize) -> Schedule {
    let everybody = Set::MAX >> (LARGEST - n);
    let mut crashes = vec![n as u8; n];
    let mut reaches: Vec<Set> = (0..n).map(|place| everybody & !(1 << place)).collect();
    crashes[n - 1] = 0;
    reaches[n - 1] = 0;
    Schedule::new(n, n - 1, &vec![Vote::Abort; n], &crashes, &reaches).unwrap()
}

#[test]
fn schedules_of_every_size_are_read_back() {
    for n in 4..=LARGEST {
        let schedule = full(n);
        let text = schedule.to_string();
        assert_eq!(text.parse(), Ok(schedule));
        assert!(text.len() <= LONGEST_WRITTEN, "{n}");
    }
    let lines = full(LARGEST).to_string().lines().count();
    assert_eq!(lines, LARGEST + 3);
    assert_eq!(full(LARGEST).to_string().len(), LONGEST_WRITTEN);
}

/// Equality goes by every part, and so does the text.
#[test]
fn schedules_are_equal_exactly_if_their_texts_are() {
    let commit = [Vote::Commit; 5];
    let mut votes = commit;
    votes[4] = Vote::Abort;
    let (crash, reach) = ([2, 0, 0, 0, 0], [0b10, 0, 0, 0, 0]);
    let schedules = [
        Schedule::new(5, 3, &commit, &crash, &reach),
        Schedule::new(5, 4, &commit, &crash, &reach),
        Schedule::new(5, 3, &votes, &crash, &reach),
        Schedule::new(5, 3, &commit, &[3, 0, 0, 0, 0], &reach),
        Schedule::new(5, 3, &commit, &crash, &[0; 5]),
    ]
    .map(Result::unwrap);
    for a in &schedules {
        for b in &schedules {
            assert_eq!(a == b, a.to_string() == b.to_string(), "{a}{b}");
        }
    }
    let distinct: HashSet<Schedule> = schedules.iter().cloned().collect();
    assert_eq!(distinct.len(), schedules.len());
}

/// Bytes that are no text at all, and the two lengths at the limit.
#[test]
fn any_bytes_are_taken() {
    let read = Schedule::from_bytes;
    let refused = |refusal, line| Err(TextRefusal { refusal, line });
    assert_eq!(read(&[]), refused(Refusal::Form, 1));
    assert_eq!(read(&[255; 100]), refused(Refusal::Form, 1));
    let mut text = CASE_D.as_bytes().to_vec();
    text.resize(LONGEST_TEXT, b'\n');
    assert_eq!(read(&text), refused(Refusal::Form, 8));
    text.push(b'\n');
    assert_eq!(read(&text), refused(Refusal::TextLength, 0));
    text.resize(1_000_000, 0);
    assert_eq!(read(&text), refused(Refusal::TextLength, 0));
}

#[test]
fn a_refused_text_is_told_in_words() {
    let words = |text: &str| text.parse::<Schedule>().unwrap_err().to_string();
    let late = CASE_D.replace("3 1 0", "3 1 5");
    assert_eq!(
        words(&late),
        "refused with 5 on line 6: a crash round is above t + 1"
    );
    assert_eq!(
        words(&"\n".repeat(LONGEST_TEXT + 1)),
        "refused with 8: the text is longer than 8192 bytes"
    );
    assert_eq!(
        words(&format!("{CASE_D}\n")),
        "refused with 9 on line 8: a line is not of its form or is not there, or something follows the last process"
    );
}
