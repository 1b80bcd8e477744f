//! Texts through a program, `bench`, `outcome` or `why`, and through the reference, byte for byte.

use reference::outcome;
use reference::report::{refusal, report};
use reference::run::{run_heard, Hearing, Run};
use reference::schedule::Schedule;
use reference::text::{read, write};
use reference::why;

use crate::damage::{damaged, DAMAGES};
use crate::demands;
use crate::findings::{share, Findings};
use crate::generate::{of_case, of_size, sizes, FAMILIES};
use crate::random::Random;

/// The program under test: what it prints for a text, or in words why there is no answer.
pub type Program<'a> = &'a (dyn Fn(&[u8]) -> Result<Vec<u8>, String> + Sync);

/// What a program prints for an accepted schedule. A refused text gets the same lines from all.
#[derive(Clone, Copy, Debug, PartialEq, Eq)]
pub enum Prints {
    /// The report, as `bench` does.
    Report,
    /// The outcome, as `outcome` does.
    Outcome,
    /// Why each process decided, as `why` does.
    Why,
}

impl Prints {
    /// The lines for a schedule with its finished run and the hearings of it. Where rules are named, they are counted.
    fn lines(
        self,
        findings: &mut Findings,
        schedule: &Schedule,
        run: &Run,
        hearings: &[Hearing],
    ) -> Vec<u8> {
        match self {
            Prints::Report => report(schedule, run),
            Prints::Outcome => outcome::lines(outcome::of_run(run)),
            Prints::Why => {
                let whys = why::of_all(schedule, run, hearings);
                for why in &whys {
                    findings.rules[why.numbers()[0]] += 1;
                }
                why::lines(&whys)
            }
        }
    }
}

/// The refusal numbers that a text can get.
pub const NUMBERS: [u8; 8] = [1, 2, 4, 5, 6, 7, 8, 9];

/// The parts' keys for the random numbers.
const VALID: u64 = 1;
const DAMAGED: u64 = 2;

/// Compares so many texts of accepted schedules.
pub fn compare_valid(seed: u64, count: u64, prints: Prints, program: Program) -> Findings {
    let sizes = sizes();
    share(count, FAMILIES.len(), |findings, case| {
        let mut random = Random::of_case(seed, VALID, case);
        let (family, schedule) = of_case(&mut random, &sizes, case);
        let text = write(&schedule);
        assert_eq!(read(&text), Ok(schedule), "a generated text is accepted");
        compare(findings, case, family, &text, prints, program);
    })
}

/// Compares damaged texts until so many are refused; those still accepted are compared and counted apart.
pub fn compare_damaged(seed: u64, count: u64, prints: Prints, program: Program) -> Findings {
    let sizes = sizes();
    share(count, DAMAGES.len(), |findings, case| {
        let mut random = Random::of_case(seed, DAMAGED, case);
        let kind = case as usize % DAMAGES.len();
        loop {
            let size = random.pick(&sizes);
            let schedule = of_size(&mut random, size);
            let text = damaged(&mut random, &schedule, kind);
            if compare(findings, case, kind, &text, prints, program).is_some() {
                break;
            }
        }
    })
}

/// Compares both answers to a text; gives the number of its refusal.
fn compare(
    findings: &mut Findings,
    case: u64,
    kind: usize,
    text: &[u8],
    prints: Prints,
    program: Program,
) -> Option<u8> {
    let (expected, number) = match read(text) {
        Err(refused) => (refusal(text, refused), Some(refused.refusal.number())),
        Ok(schedule) => {
            let heard = run_heard(&schedule);
            let (run, hearings) = heard.expect("the reader asks every question of a run");
            // All programs get the same texts, whose runs are held against what is promised once.
            if prints == Prints::Report {
                demands::check(findings, case, &schedule, &run, &hearings);
            }
            findings.sizes.insert((schedule.n, schedule.t));
            let lines = prints.lines(findings, &schedule, &run, &hearings);
            (lines, None)
        }
    };
    findings.count(kind, number);
    let found = program(text);
    findings.compare(case, found.as_ref() == Ok(&expected), || {
        let found = match &found {
            Ok(printed) => show(printed),
            Err(words) => format!("  {words}\n"),
        };
        let (text, expected) = (show(text), show(&expected));
        format!("text:\n{text}reference:\n{expected}under test:\n{found}")
    });
    number
}

/// Bytes as lines to read, each with its LF; bytes that aren't letters are written as Rust writes them.
pub fn show(bytes: &[u8]) -> String {
    bytes
        .split_inclusive(|byte| *byte == b'\n')
        .map(|line| format!("  {}\n", line.escape_ascii()))
        .collect()
}
