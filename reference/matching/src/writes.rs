//! Schedules written into lent buffers, accepted and refused, through the writer under test and through the reference:
//! the whole buffer afterwards is compared, and the length used.

use std::ops::Range;

use reference::files::write_schedule;
use reference::questions::Refusal;
use reference::schedule::Schedule;
use reference::text;
use reference::{LARGEST, LONGEST};

use crate::findings::{share, Findings};
use crate::generate::{of_size, sizes, walked};
use crate::random::Random;
use crate::tables;

/// The writer under test: it writes the text of a schedule to the start of a lent buffer, and its length to a lent
/// number; or it gives a number, and leaves both.
pub type Write<'a> = &'a (dyn Fn(&Schedule, &mut [u8], &mut usize) -> Result<(), u8> + Sync);

/// The refusal numbers that a writing can get.
pub const NUMBERS: [u8; 8] = [1, 2, 3, 4, 5, 6, 7, 18];

/// The part's key for the random numbers.
const WRITES: u64 = 7;

/// A call: the schedule as given, and the buffer and the number for its length as lent.
#[derive(Clone, Debug)]
struct Call {
    schedule: Schedule,
    buffer: Vec<u8>,
    used: usize,
}

/// What a call gives, and what is lent after it.
#[derive(Clone, Debug, PartialEq, Eq)]
struct Answer {
    accepted: Result<(), u8>,
    buffer: Vec<u8>,
    used: usize,
}

impl Call {
    /// Makes the call.
    fn answer(&self, write: Write) -> Answer {
        let (mut buffer, mut used) = (self.buffer.clone(), self.used);
        let accepted = write(&self.schedule, &mut buffer, &mut used);
        Answer {
            accepted,
            buffer,
            used,
        }
    }

    /// Two answers to the call in words, with the first byte of the buffers that is different.
    fn words(&self, expected: &Answer, found: &Answer) -> String {
        let (schedule, length) = (&self.schedule, self.buffer.len());
        let answer = |answer: &Answer| format!("{:?}, used {}", answer.accepted, answer.used);
        let mut places = (0..length).filter(|k| expected.buffer[*k] != found.buffer[*k]);
        let byte = places.next().map_or("none".to_string(), |k| {
            let [lent, right, wrong] =
                [&self.buffer, &expected.buffer, &found.buffer].map(|b| b[k]);
            format!("at place {k}, lent as {lent}, {right} in the reference, {wrong} under test")
        });
        format!(
            "schedule: {schedule:?}\nlent: {length} bytes, used {}\nreference: {}\nunder test: {}\n\
             first different byte: {byte}\n",
            self.used,
            answer(expected),
            answer(found)
        )
    }
}

/// The reference's writer.
pub fn by_reference(schedule: &Schedule, buffer: &mut [u8], used: &mut usize) -> Result<(), u8> {
    *used = write_schedule(schedule, buffer).map_err(Refusal::number)?;
    Ok(())
}

/// Compares so many writings. The sizes are walked: each comes up once with every kind, and then the next one.
pub fn compare(seed: u64, count: u64, write: Write) -> Findings {
    let sizes = sizes();
    share(count, KINDS, |findings, case| {
        let (kind, call) = of_case(seed, &sizes, case);
        let expected = call.answer(&by_reference);
        findings.count(kind, expected.accepted.err());
        if expected.accepted.is_ok() {
            findings.sizes.insert((call.schedule.n, call.schedule.t));
        }
        let found = call.answer(write);
        findings.compare(case, expected == found, || call.words(&expected, &found));
    })
}

/// How long the buffer is for a text of a length, which isn't below that of a text without processes.
type Length = fn(&mut Random, usize) -> usize;

/// The kinds of buffers and their names, in which LONGEST stands for its number.
const BUFFERS: [(&str, Length); 10] = [
    ("a buffer of exactly the length", |_, length| length),
    ("a buffer one byte too short", |_, length| length - 1),
    ("a buffer some bytes too short", |random, length| {
        length - random.within(2..=20)
    }),
    (
        "a buffer of any length that is too short",
        |random, length| random.below(length),
    ),
    ("an empty buffer", |_, _| 0),
    ("a buffer one byte longer", |_, length| length + 1),
    ("a buffer some bytes longer", |random, length| {
        length + random.within(2..=100)
    }),
    ("a buffer of LONGEST bytes", |_, _| LONGEST),
    ("a buffer longer than LONGEST bytes", |random, _| {
        random.within(LONGEST + 1..=2 * LONGEST)
    }),
    ("a buffer of any length", |random, _| random.below(LONGEST)),
];

/// The places of those that are too short.
const SHORT_BUFFERS: Range<usize> = 1..5;

/// How many kinds of calls there are: those of buffers, for schedules that are accepted; those of schedules that are
/// changed as for the calls on tables, with any kind of buffer; and one with two reasons to refuse it, 7 and 18.
pub const KINDS: usize = SEVEN_OR_18 + 1;

/// The place of the last kind.
const SEVEN_OR_18: usize = BUFFERS.len() + tables::KINDS.len() - tables::ACCEPTED;

/// The names of the kinds.
pub fn names() -> Vec<&'static str> {
    let changes = tables::KINDS.iter().skip(tables::ACCEPTED);
    let mut names: Vec<&str> = BUFFERS.iter().map(|(name, _)| *name).collect();
    names.extend(changes.map(|(name, _)| *name));
    names.push("f above t and a buffer that is too short");
    names
}

/// The call of a case and its kind.
fn of_case(seed: u64, sizes: &[(usize, usize)], case: u64) -> (usize, Call) {
    let mut random = Random::of_case(seed, WRITES, case);
    let (walk, kind) = (case as usize / KINDS, case as usize % KINDS);
    let (schedule, length) = of_kind(&mut random, walked(sizes, walk), kind);
    let text = text_length(&mut random, &schedule);
    let length = length(&mut random, text);
    let call = Call {
        schedule,
        buffer: random.bytes(length),
        used: random.bits() as usize,
    };
    (kind, call)
}

/// The schedule and the length of the buffer of a kind. The calls on tables also take two answer tables: where these
/// alone are changed, the schedule is accepted still.
fn of_kind(random: &mut Random, size: (usize, usize), kind: usize) -> (Schedule, Length) {
    let changed = |random: &mut Random, change| tables::call_of_kind(random, size, change).schedule;
    let (schedule, (_, length)) = match kind.checked_sub(BUFFERS.len()) {
        None => (of_size(random, size), BUFFERS[kind]),
        Some(_) if kind == SEVEN_OR_18 => (
            changed(random, tables::F_ABOVE_T),
            random.pick(&BUFFERS[SHORT_BUFFERS]),
        ),
        Some(change) => (
            changed(random, tables::ACCEPTED + change),
            random.pick(&BUFFERS),
        ),
    };
    (schedule, length)
}

/// The length of the text of a schedule, accepted or not; where there is no text, for the tables aren't n long, any.
fn text_length(random: &mut Random, schedule: &Schedule) -> usize {
    let n = schedule.n;
    let lengths = [
        schedule.votes.len(),
        schedule.crashes.len(),
        schedule.reaches.len(),
    ];
    if n <= LARGEST && lengths == [n; 3] {
        text::write(schedule).len()
    } else {
        random.within(100..=LONGEST)
    }
}

#[cfg(test)]
mod tests {
    use super::*;
    use std::collections::BTreeMap;

    /// The calls of a short walk, with their kinds and the reference's answers.
    fn walk() -> Vec<(usize, Call, Answer)> {
        let sizes = sizes();
        let of_case = |case| {
            let (kind, call) = of_case(1, &sizes, case);
            let answer = call.answer(&by_reference);
            (kind, call, answer)
        };
        (0..200 * KINDS as u64).map(of_case).collect()
    }

    #[test]
    fn buffers_are_as_named() {
        for (kind, call, answer) in walk() {
            let length = call.buffer.len();
            match kind {
                0 => assert_eq!((answer.accepted, answer.used), (Ok(()), length)),
                1..=4 => assert_eq!(answer.accepted, Err(18)),
                5 => assert_eq!((answer.accepted, answer.used), (Ok(()), length - 1)),
                6..=8 => assert!(answer.accepted.is_ok() && answer.used < length - 1),
                SEVEN_OR_18 => assert!(matches!(answer.accepted, Err(7 | 18))),
                _ => {}
            }
            if answer.accepted.is_err() {
                assert_eq!((answer.buffer, answer.used), (call.buffer, call.used));
            }
        }
    }

    /// Whether a buffer is too short for a schedule's text comes up with every number, and both ways.
    #[test]
    fn each_number_comes_up_with_long_and_short_buffers() {
        let mut met = BTreeMap::new();
        for (_, call, answer) in walk() {
            // No text of a schedule that is accepted is longer than this.
            let long = call.buffer.len() >= 4_692;
            let short = call.buffer.len() < 28;
            if long || short {
                let key = (answer.accepted.err(), long);
                *met.entry(key).or_insert(0) += 1;
            }
        }
        let all = (1..=7).flat_map(|number| [(number, false), (number, true)]);
        for (number, long) in all {
            let count = met.get(&(Some(number), long)).copied().unwrap_or(0);
            assert!(count >= 10, "{number}, {long}: {count}");
        }
    }

    /// Schedules with one crash too many in a buffer that is one byte too short for their text: 7 goes first.
    #[test]
    fn too_many_crashes_come_up_with_one_byte_too_few() {
        let both = walk().into_iter().filter(|(_, call, answer)| {
            answer.accepted == Err(7) && call.buffer.len() + 1 == text::write(&call.schedule).len()
        });
        assert!(both.count() >= 10);
    }

    #[test]
    fn kinds_and_their_names() {
        assert_eq!(names().len(), KINDS);
        let (name, _) = tables::KINDS[tables::F_ABOVE_T];
        assert_eq!(name, "f above t");
        assert_eq!(names()[BUFFERS.len()], "n of any size");
    }
}
