//! The report of a run and the answer to a refused text (document 01, "Schedule text and report").

use crate::run::{run, Run, NONE};
use crate::schedule::Schedule;
use crate::text::{line, read, Refused};

/// What `bench` prints for a text.
pub fn answer(text: &[u8]) -> Vec<u8> {
    match read(text) {
        Err(refused) => refusal(text, refused),
        Ok(schedule) => {
            let run = run(&schedule).expect("the reader asks every question of a run");
            report(&schedule, &run)
        }
    }
}

/// The report of a finished run.
pub fn report(schedule: &Schedule, run: &Run) -> Vec<u8> {
    let (n, t, counts) = (schedule.n, schedule.t, &run.counts);
    let (f, first, last, messages) = (counts.f, counts.first, counts.last, counts.messages);
    let mut report = String::from("n t f first last messages\n");
    report += &format!("{n} {t} {f} {first} {last} {messages}\n");
    report += "id decision round\n";
    for (place, (decision, round)) in run.decisions.iter().zip(&run.rounds).enumerate() {
        let id = place + 1;
        report += &match *decision {
            NONE => format!("{id} - {round}\n"),
            value => format!("{id} {value} {round}\n"),
        };
    }
    report.into_bytes()
}

/// The three lines for a refused text.
pub fn refusal(text: &[u8], refused: Refused) -> Vec<u8> {
    let (number, k) = (refused.refusal.number(), refused.line);
    let mut answer = format!("refused line\n{number} {k}\n").into_bytes();
    answer.extend_from_slice(line(text, k));
    answer.push(b'\n');
    answer
}
