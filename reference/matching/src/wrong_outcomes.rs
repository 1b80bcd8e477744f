//! Wrong outcomes that document 02's K6 invites: wrong values and rounds, bytes that are written or kept wrongly,
//! questions that are asked wrongly, and wrong lines.

use reference::crashes::count_crashes;
use reference::demand3::bound;
use reference::member::Member;
use reference::outcome::{answer, lines, of_run, Outcome, HEADING};
use reference::questions::Refusal;
use reference::report::{self, refusal};
use reference::run::{play, play_heard, Run};
use reference::schedule::{everyone, Schedule};
use reference::so_far::settling_round;
use reference::text::{line, read, Refused};
use reference::LARGEST;

use crate::limits::{Cut, Refuse};
use crate::outcomes::{by_reference, bytes, Lent};
use crate::wrong::Hear;

/// A way of taking the outcome of an accepted schedule from its finished run.
pub type OutcomeBy = fn(&Schedule, &Run) -> Outcome;

/// Wrong values and rounds.
pub const TAKES: [(&str, OutcomeBy); 20] = [
    ("one round too many", |_, run| {
        changed(run, |outcome| outcome.round += 1)
    }),
    ("one round too few", |_, run| {
        changed(run, |outcome| outcome.round -= 1)
    }),
    ("the last round in place of the first", |_, run| {
        changed(run, |outcome| outcome.round = run.counts.last as u8)
    }),
    ("the estimate of an undecided process", |s, run| {
        let Outcome { value, round } = of_run(run);
        let undecided = |i: &usize| !(1..=round).contains(&run.rounds[i - 1]);
        let process = (1..=s.n).find(undecided);
        let value = process.map_or(value, |i| estimates(s, round)[i - 1]);
        Outcome { value, round }
    }),
    ("process 1's estimate, decided or not", |s, run| {
        changed(run, |outcome| {
            outcome.value = estimates(s, outcome.round)[0]
        })
    }),
    ("0 if any process has estimate 0", |s, run| {
        changed(run, |outcome| {
            let zero = estimates(s, outcome.round).contains(&0);
            outcome.value = u8::from(!zero);
        })
    }),
    ("2 for the value", |_, run| {
        changed(run, |outcome| outcome.value = 2)
    }),
    ("2 for the value where process 1 has none", |_, run| {
        changed(run, |outcome| outcome.value = run.decisions[0])
    }),
    ("the other value", |_, run| {
        changed(run, |outcome| outcome.value = 1 - outcome.value)
    }),
    ("the round and the value exchanged", |_, run| {
        let Outcome { value, round } = of_run(run);
        Outcome {
            value: round,
            round: value,
        }
    }),
    ("process 1's values always", |_, run| of_process(run, 1)),
    ("process n's values always", |s, run| of_process(run, s.n)),
    ("the values of the lowest number that decides", |_, run| {
        let lowest = run.rounds.iter().position(|round| *round != 0);
        lowest.map_or(of_run(run), |place| of_process(run, place + 1))
    }),
    ("the smallest round of a survivor", |s, run| {
        let survivors = (1..=s.n).filter(|i| s.survives(*i));
        let round = survivors.map(|i| run.rounds[i - 1]).min();
        changed(run, |outcome| outcome.round = round.unwrap_or(0))
    }),
    ("0 as soon as somebody crashes", |s, run| {
        changed(run, |outcome| {
            if s.f() != 0 {
                outcome.value = 0;
            }
        })
    }),
    ("1 if all votes are 1", |s, run| {
        changed(run, |outcome| outcome.value = u8::from(!s.has_vote_0()))
    }),
    ("round 2 always", |_, run| {
        changed(run, |outcome| outcome.round = 2)
    }),
    ("the settling round", |s, run| {
        let settling = settling_round(s.t, &s.crashes);
        changed(run, |outcome| outcome.round = settling as u8)
    }),
    ("round B", |s, run| {
        changed(run, |outcome| outcome.round = bound(s) as u8)
    }),
    ("the first decider's number for the round", |_, run| {
        changed(run, |outcome| outcome.round = run.counts.first as u8)
    }),
];

/// The right outcome, changed.
fn changed(run: &Run, change: impl Fn(&mut Outcome)) -> Outcome {
    let mut outcome = of_run(run);
    change(&mut outcome);
    outcome
}

/// Decision and round of process i, 2 and 0 for none.
fn of_process(run: &Run, i: usize) -> Outcome {
    Outcome {
        value: run.decisions[i - 1],
        round: run.rounds[i - 1],
    }
}

/// The estimates of all processes after round r, in order, those that crashed included.
fn estimates(schedule: &Schedule, r: u8) -> Vec<u8> {
    let mut estimates = schedule.votes.clone();
    let (_, hearings) = play_heard(schedule, Member::after);
    for hearing in hearings {
        if hearing.round <= usize::from(r) {
            estimates[hearing.after.own - 1] = hearing.after.estimate;
        }
    }
    estimates
}

/// A call that takes the outcome wrongly.
pub fn taking(take: OutcomeBy) -> impl Fn(&Schedule, &mut Lent) -> Result<(), u8> + Sync {
    telling(move |schedule| take(schedule, &play(schedule, Member::after)))
}

/// A call that hears by a wrong turn.
pub fn hearing(hear: Hear) -> impl Fn(&Schedule, &mut Lent) -> Result<(), u8> + Sync {
    telling(move |schedule| of_run(&play(schedule, hear)))
}

/// A call that keeps reaches wrongly.
pub fn cutting(cut: Cut) -> impl Fn(&Schedule, &mut Lent) -> Result<(), u8> + Sync {
    telling(move |schedule| {
        let mut schedule = schedule.clone();
        for reach in &mut schedule.reaches {
            *reach = cut(*reach);
        }
        of_run(&play(&schedule, Member::after))
    })
}

/// A call that tells the outcome of an accepted schedule in a given way.
fn telling(
    outcome: impl Fn(&Schedule) -> Outcome + Sync,
) -> impl Fn(&Schedule, &mut Lent) -> Result<(), u8> + Sync {
    move |schedule, lent| {
        schedule.ask().map_err(Refusal::number)?;
        *lent = bytes(outcome(schedule));
        Ok(())
    }
}

/// A call that refuses some accepted schedules.
pub fn refusing(refuse: Refuse) -> impl Fn(&Schedule, &mut Lent) -> Result<(), u8> + Sync {
    move |schedule, lent| {
        schedule.ask().map_err(Refusal::number)?;
        match refuse(schedule) {
            Some(refused) => Err(refused.refusal.number()),
            None => by_reference(schedule, lent),
        }
    }
}

/// A way of calling for the outcome.
pub type TellBy = fn(&Schedule, &mut Lent) -> Result<(), u8>;

/// Bytes that are written or kept wrongly.
pub const WRITTEN: [(&str, TellBy); 10] = [
    ("nothing written", |s, lent| {
        let mut unused = *lent;
        by_reference(s, &mut unused)
    }),
    ("the value alone written", |s, lent| {
        after(s, lent, |before, given| given[1] = before[1])
    }),
    ("the round alone written", |s, lent| {
        after(s, lent, |before, given| given[0] = before[0])
    }),
    ("the value joined with what stood there", |s, lent| {
        after(s, lent, |before, given| given[0] |= before[0])
    }),
    ("the round added to what stood there", |s, lent| {
        after(s, lent, |before, given| {
            given[1] = given[1].wrapping_add(before[1]);
        })
    }),
    ("a refused call that writes 0 and 0", |s, lent| {
        refused(s, lent, |_, lent| *lent = [0; 2])
    }),
    ("a refused call that writes 2 for the value", |s, lent| {
        refused(s, lent, |_, lent| lent[0] = 2)
    }),
    ("a refused call that writes its number", |s, lent| {
        refused(s, lent, |number, lent| lent[1] = number)
    }),
    ("the value written on refusal 7", |s, lent| {
        refused(s, lent, |number, lent| {
            if number == 7 {
                lent[0] = 0;
            }
        })
    }),
    ("the round written on refusal 1", |s, lent| {
        refused(s, lent, |number, lent| {
            if number == 1 {
                lent[1] = 0;
            }
        })
    }),
];

/// The right call; what an accepted one gives is changed, with a look at what stood there.
fn after(
    schedule: &Schedule,
    lent: &mut Lent,
    change: impl Fn(&Lent, &mut Lent),
) -> Result<(), u8> {
    let before = *lent;
    by_reference(schedule, lent)?;
    change(&before, lent);
    Ok(())
}

/// The right call; a refused one changes the bytes, with a look at its number.
fn refused(schedule: &Schedule, lent: &mut Lent, change: impl Fn(u8, &mut Lent)) -> Result<(), u8> {
    let answer = by_reference(schedule, lent);
    if let Err(number) = answer {
        change(number, lent);
    }
    answer
}

/// Questions that are asked wrongly.
pub const ASKED: [(&str, TellBy); 15] = [
    ("votes that are too long let pass", |s, lent| {
        with(s, lent, |s| s.votes.truncate(s.n))
    }),
    ("crashes that are too long let pass", |s, lent| {
        with(s, lent, |s| s.crashes.truncate(s.n))
    }),
    ("reaches that are too long let pass", |s, lent| {
        with(s, lent, |s| s.reaches.truncate(s.n))
    }),
    ("votes above 1 let pass", |s, lent| {
        with(s, lent, |s| {
            for vote in &mut s.votes {
                *vote = (*vote).min(1);
            }
        })
    }),
    ("crash rounds above t + 1 let pass", |s, lent| {
        with(s, lent, |s| {
            let last = s.t.saturating_add(1).min(255) as u8;
            for crash in &mut s.crashes {
                *crash = (*crash).min(last);
            }
        })
    }),
    ("reaches above n let pass", |s, lent| {
        with(s, lent, |s| {
            let named = everyone(s.n.min(LARGEST));
            for reach in &mut s.reaches {
                *reach &= named;
            }
        })
    }),
    ("n = 65 let in", |s, lent| {
        with(s, lent, |s| {
            if s.n == LARGEST + 1 {
                s.n = LARGEST;
                s.votes.truncate(LARGEST);
                s.crashes.truncate(LARGEST);
                s.reaches.truncate(LARGEST);
            }
        })
    }),
    ("n and t taken as bytes", |s, lent| {
        with(s, lent, |s| (s.n, s.t) = (s.n % 256, s.t % 256))
    }),
    ("number 7 not asked", |s, lent| {
        match by_reference(s, lent) {
            Err(7) => Ok(()),
            answer => answer,
        }
    }),
    ("number 7 asked before later processes", |s, lent| {
        let answer = by_reference(s, lent);
        if let Err(4..=6) = answer {
            let right = (1..=s.n).take_while(|i| s.ask_process(*i).is_ok());
            let crashes = &s.crashes[..right.count()];
            if count_crashes(s.t, crashes).count > s.t {
                return Err(7);
            }
        }
        answer
    }),
    ("number 3 asked first", |s, lent| {
        let lengths = [s.votes.len(), s.crashes.len(), s.reaches.len()];
        if lengths != [s.n; 3] {
            return Err(3);
        }
        by_reference(s, lent)
    }),
    ("all votes asked before all crash rounds", |s, lent| {
        let answer = by_reference(s, lent);
        match answer {
            Err(5 | 6) if s.votes.iter().any(|vote| *vote > 1) => Err(4),
            _ => answer,
        }
    }),
    ("5 and 6 exchanged", |s, lent| {
        by_reference(s, lent).map_err(|number| match number {
            5 => 6,
            6 => 5,
            _ => number,
        })
    }),
    ("every refusal given as 1", |s, lent| {
        by_reference(s, lent).map_err(|_| 1)
    }),
    ("a crash round of t + 1 refused", |s, lent| {
        let mut given = *lent;
        by_reference(s, &mut given)?;
        if (1..=s.n).any(|i| s.crash(i) == s.t + 1) {
            return Err(5);
        }
        *lent = given;
        Ok(())
    }),
];

/// The right call with another schedule.
fn with(schedule: &Schedule, lent: &mut Lent, change: impl Fn(&mut Schedule)) -> Result<(), u8> {
    let mut schedule = schedule.clone();
    change(&mut schedule);
    by_reference(&schedule, lent)
}

/// A way of printing an outcome.
pub type Print = fn(Outcome) -> Vec<u8>;

/// Wrong lines of an accepted text.
pub const PRINTED: [(&str, Print); 13] = [
    ("the names exchanged", |Outcome { value, round }| {
        words(format!("round decision\n{value} {round}\n"))
    }),
    ("the names of the report", |Outcome { value, round }| {
        words(format!("id decision round\n{value} {round}\n"))
    }),
    ("no line of names", |Outcome { value, round }| {
        words(format!("{value} {round}\n"))
    }),
    ("the values in two lines", |Outcome { value, round }| {
        words(format!("{HEADING}\n{value}\n{round}\n"))
    }),
    (
        "two spaces between the values",
        |Outcome { value, round }| words(format!("{HEADING}\n{value}  {round}\n")),
    ),
    ("a space at the end", |Outcome { value, round }| {
        words(format!("{HEADING}\n{value} {round} \n"))
    }),
    ("no LF at the end", |outcome| {
        let mut printed = lines(outcome);
        printed.pop();
        printed
    }),
    ("an empty line at the end", |outcome| {
        [&lines(outcome)[..], b"\n"].concat()
    }),
    ("CR LF in place of LF", |Outcome { value, round }| {
        words(format!("{HEADING}\r\n{value} {round}\r\n"))
    }),
    ("a leading zero in the round", |Outcome { value, round }| {
        words(format!("{HEADING}\n{value} {round:02}\n"))
    }),
    (
        "the first digit of the round alone",
        |Outcome { value, round }| {
            let digit = if round < 10 { round } else { round / 10 };
            words(format!("{HEADING}\n{value} {digit}\n"))
        },
    ),
    (
        "the last digit of the round alone",
        |Outcome { value, round }| words(format!("{HEADING}\n{value} {}\n", round % 10)),
    ),
    ("- in place of 0", |Outcome { value, round }| {
        let letter = if value == 0 { '-' } else { '1' };
        words(format!("{HEADING}\n{letter} {round}\n"))
    }),
];

fn words(words: String) -> Vec<u8> {
    words.into_bytes()
}

/// A program that prints an outcome wrongly.
pub fn printing(print: Print) -> impl Fn(&[u8]) -> Result<Vec<u8>, String> + Sync {
    program(move |schedule| print(of_run(&play(schedule, Member::after))))
}

/// A program that takes the outcome wrongly.
pub fn program_taking(take: OutcomeBy) -> impl Fn(&[u8]) -> Result<Vec<u8>, String> + Sync {
    program(move |schedule| lines(take(schedule, &play(schedule, Member::after))))
}

/// A program that prints something for an accepted schedule.
fn program(
    print: impl Fn(&Schedule) -> Vec<u8> + Sync,
) -> impl Fn(&[u8]) -> Result<Vec<u8>, String> + Sync {
    move |text| {
        Ok(match read(text) {
            Err(refused) => refusal(text, refused),
            Ok(schedule) => print(&schedule),
        })
    }
}

/// A way of answering a text.
pub type AnswerBy = fn(&[u8]) -> Vec<u8>;

/// Wrong answers to refused texts.
pub const REFUSALS: [(&str, AnswerBy); 8] = [
    ("a refusal under the names of the outcome", |text| {
        refused_by(text, |refused| {
            [HEADING.as_bytes(), b"\n", &refusal(text, refused)].concat()
        })
    }),
    ("a refusal without its line", |text| {
        refused_by(text, |Refused { refusal, line }| {
            words(format!("refused line\n{} {line}\n", refusal.number()))
        })
    }),
    ("a refusal with the line after it", |text| {
        refused_by(text, |Refused { refusal: why, line }| {
            let line = line + 1;
            refusal(text, Refused { refusal: why, line })
        })
    }),
    ("2 and 0 printed for a refused text", |text| {
        refused_by(text, |_| words(format!("{HEADING}\n2 0\n")))
    }),
    ("nothing printed for a refused text", |text| {
        refused_by(text, |_| Vec::new())
    }),
    ("number 7 with line n + 4", |text| {
        refused_by(text, |mut refused| {
            if refused.refusal == Refusal::TooManyCrashes {
                refused.line += 1;
            }
            refusal(text, refused)
        })
    }),
    ("what follows the last line not looked at", |text| {
        refused_by(text, |refused| {
            let lines = text.split_inclusive(|byte| *byte == b'\n');
            let kept = lines.take(refused.line.saturating_sub(1));
            let kept: Vec<u8> = kept.flatten().copied().collect();
            match read(&kept) {
                Ok(_) => answer(&kept),
                Err(_) => refusal(text, refused),
            }
        })
    }),
    ("line 0 for an empty line 1", |text| {
        refused_by(text, |mut refused| {
            if line(text, 1).is_empty() {
                refused.line = 0;
            }
            refusal(text, refused)
        })
    }),
];

/// The right answer to an accepted text, and another one to a refused text.
fn refused_by(text: &[u8], change: impl Fn(Refused) -> Vec<u8>) -> Vec<u8> {
    match read(text) {
        Err(refused) => change(refused),
        Ok(_) => answer(text),
    }
}

/// The report in place of the outcome.
pub fn report_printed(text: &[u8]) -> Result<Vec<u8>, String> {
    Ok(report::answer(text))
}

#[cfg(test)]
mod tests {
    use super::*;
    use crate::generate::{of_case, sizes, SIZES_COUNT};
    use crate::random::Random;
    use crate::wrong::{STOPPING, TURNS};
    use reference::schedule::bit;
    use reference::Set;

    /// A crash: the process, its crash round, and its reach.
    type Crash = (usize, u8, Set);

    /// The places of the wrong takes that differ from the right outcome, each with what it gives; n = 4, t = 3, all votes 1.
    fn wrong_takes(crashes: &[Crash], right: Lent) -> Vec<(usize, Lent)> {
        let mut schedule = Schedule::quiet(4, 3);
        for (i, round, reach) in crashes {
            schedule.crashes[i - 1] = *round;
            schedule.reaches[i - 1] = *reach;
        }
        let run = play(&schedule, Member::after);
        let takes = TAKES.iter().map(|(_, take)| bytes(take(&schedule, &run)));
        let of_place = takes.enumerate();
        of_place.filter(|(_, found)| *found != right).collect()
    }

    #[test]
    fn wrong_values_and_rounds() {
        // Case A: 1@2 for all; first 1.
        let expected = [
            (0, [1, 3]),
            (1, [1, 1]),
            (6, [2, 2]),
            (8, [0, 2]),
            (9, [2, 1]),
            (19, [1, 1]),
        ];
        assert_eq!(wrong_takes(&[], [1, 2]), expected);
        // Case D: - 0@3 0@3 0@3. Process 1 keeps estimate 1. f = 1, so B = 3; first 2.
        let expected = [
            (0, [0, 4]),
            (1, [0, 2]),
            (3, [1, 3]),
            (4, [1, 3]),
            (6, [2, 3]),
            (7, [2, 3]),
            (8, [1, 3]),
            (9, [3, 0]),
            (10, [2, 0]),
            (15, [1, 3]),
            (16, [0, 2]),
            (19, [0, 2]),
        ];
        assert_eq!(wrong_takes(&[(1, 1, bit(2))], [0, 3]), expected);
        // 1@3 1@3 1@2 -: process 4 reaches 3 alone in round 2, and process 3 crashes in round 3. f = 2, so B = 3.
        let expected = [
            (0, [1, 3]),
            (1, [1, 1]),
            (2, [1, 3]),
            (6, [2, 2]),
            (8, [0, 2]),
            (9, [2, 1]),
            (10, [1, 3]),
            (11, [2, 0]),
            (12, [1, 3]),
            (13, [1, 3]),
            (14, [0, 2]),
            (17, [1, 3]),
            (18, [1, 3]),
            (19, [1, 3]),
        ];
        let crashes = [(4, 2, bit(3)), (3, 3, 0)];
        assert_eq!(wrong_takes(&crashes, [1, 2]), expected);
        // Case E: - - 1@4 -. Processes 2 and 4 crash with estimate 0.
        let crashes = [(1, 1, 0b0110), (4, 2, 0b0010), (2, 3, 0)];
        let found = wrong_takes(&crashes, [1, 4]);
        assert!(found.contains(&(5, [0, 4])) && found.contains(&(14, [0, 4])));
    }

    /// So it isn't planted.
    #[test]
    fn stopping_without_the_decided_round_changes_no_outcome() {
        let (_, hear) = TURNS[STOPPING];
        let sizes = sizes();
        let mut other_runs = 0;
        for case in 0..SIZES_COUNT as u64 {
            let mut random = Random::of_case(1, 9, case);
            let (_, schedule) = of_case(&mut random, &sizes, case);
            let (right, wrong) = (play(&schedule, Member::after), play(&schedule, hear));
            assert_eq!(of_run(&right), of_run(&wrong), "{schedule:?}");
            other_runs += usize::from(right != wrong);
        }
        assert!(other_runs > SIZES_COUNT / 2, "only {other_runs}");
    }
}
