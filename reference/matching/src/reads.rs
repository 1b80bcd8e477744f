//! Texts read into lent tables, accepted and refused, through the reader under test and through the reference: all
//! tables afterwards are compared whole, and the three numbers.

use reference::files::read_schedule;
use reference::schedule::Schedule;
use reference::text::write;
use reference::{Set, LARGEST};

use crate::damage::{damaged, DAMAGES};
use crate::findings::{share, Findings};
use crate::generate::{of_size, sizes, walked};
use crate::random::Random;
use crate::texts::show;

/// The three tables that are lent to a reader.
#[derive(Clone, Debug, PartialEq, Eq)]
pub struct Tables {
    pub votes: Vec<u8>,
    pub crashes: Vec<u8>,
    pub reaches: Vec<Set>,
}

/// The three numbers that are lent to a reader: n and t, which it gives if the text is accepted, and then the line's
/// number, which it gives if the text is refused. Those that it doesn't give it leaves.
pub type Numbers = [usize; 3];

/// The reader under test: it reads a text into tables and numbers, or gives a number.
pub type Read<'a> = &'a (dyn Fn(&[u8], &mut Tables, &mut Numbers) -> Result<(), u8> + Sync);

/// The refusal numbers that a reading can get.
pub const NUMBERS: [u8; 9] = [1, 2, 3, 4, 5, 6, 7, 8, 9];

/// The part's key for the random numbers.
const READS: u64 = 8;

impl Tables {
    /// Tables of these lengths with anything in them.
    pub fn any(random: &mut Random, [votes, crashes, reaches]: [usize; 3]) -> Tables {
        Tables {
            votes: random.bytes(votes),
            crashes: random.bytes(crashes),
            reaches: (0..reaches).map(|_| random.bits()).collect(),
        }
    }

    /// Puts a schedule, whose tables are n long, into the first n entries.
    pub fn put(&mut self, schedule: &Schedule) {
        let n = schedule.n;
        self.votes[..n].copy_from_slice(&schedule.votes);
        self.crashes[..n].copy_from_slice(&schedule.crashes);
        self.reaches[..n].copy_from_slice(&schedule.reaches);
    }

    /// The schedule with these n and t that the first n entries are; none if there are fewer.
    pub fn schedule(&self, n: usize, t: usize) -> Option<Schedule> {
        Some(Schedule {
            n,
            t,
            votes: self.votes.get(..n)?.to_vec(),
            crashes: self.crashes.get(..n)?.to_vec(),
            reaches: self.reaches.get(..n)?.to_vec(),
        })
    }
}

/// Numbers with anything in them.
pub fn any_numbers(random: &mut Random) -> Numbers {
    [0; 3].map(|_| random.bits() as usize)
}

/// A call: the text, and the tables and numbers as lent.
#[derive(Clone, Debug)]
struct Call {
    text: Vec<u8>,
    tables: Tables,
    numbers: Numbers,
}

/// What a call gives, and what is lent after it.
#[derive(Clone, Debug, PartialEq, Eq)]
struct Answer {
    accepted: Result<(), u8>,
    numbers: Numbers,
    tables: Tables,
}

impl Call {
    /// Makes the call.
    fn answer(&self, read: Read) -> Answer {
        let (mut tables, mut numbers) = (self.tables.clone(), self.numbers);
        let accepted = read(&self.text, &mut tables, &mut numbers);
        Answer {
            accepted,
            numbers,
            tables,
        }
    }

    /// Two answers to the call in words.
    fn words(&self, expected: &Answer, found: &Answer) -> String {
        let (text, numbers, tables) = (show(&self.text), self.numbers, &self.tables);
        format!(
            "text:\n{text}lent: {numbers:?}, {tables:?}\nreference: {expected:?}\nunder test: {found:?}\n"
        )
    }
}

/// The reference's reader.
pub fn by_reference(text: &[u8], tables: &mut Tables, numbers: &mut Numbers) -> Result<(), u8> {
    let Tables {
        votes,
        crashes,
        reaches,
    } = tables;
    match read_schedule(text, votes, crashes, reaches) {
        Ok((n, t)) => {
            (numbers[0], numbers[1]) = (n, t);
            Ok(())
        }
        Err(refused) => {
            numbers[2] = refused.line;
            Err(refused.refusal.number())
        }
    }
}

/// Compares so many readings. The sizes are walked: each comes up once with every kind, and then the next one.
pub fn compare(seed: u64, count: u64, read: Read) -> Findings {
    let sizes = sizes();
    share(count, KINDS, |findings, case| {
        let (kind, call) = of_case(seed, &sizes, case);
        let expected = call.answer(&by_reference);
        findings.count(kind, expected.accepted.err());
        if expected.accepted.is_ok() {
            let [n, t, _] = expected.numbers;
            findings.sizes.insert((n, t));
        }
        let found = call.answer(read);
        findings.compare(case, expected == found, || call.words(&expected, &found));
    })
}

/// How long the three tables are for a text with n processes.
type Lengths = fn(&mut Random, usize) -> [usize; 3];

/// The kinds of tables and their names.
const LENT: [(&str, Lengths); 6] = [
    ("accepted", right),
    ("accepted, too", right),
    ("one table of another length", one_other),
    ("several tables of another length", several_others),
    ("all tables of another length", all_others),
    ("any damage and a table of another length", one_other),
];

/// The place of the last of these, whose texts are damaged.
const DAMAGED_TOO: usize = LENT.len() - 1;

/// How many kinds of calls there are: those of tables, and those of damaged texts.
pub const KINDS: usize = LENT.len() + DAMAGES.len();

/// The names of the kinds.
pub fn names() -> Vec<&'static str> {
    let lent = LENT.iter().map(|(name, _)| *name);
    lent.chain(DAMAGES.iter().map(|(name, _)| *name)).collect()
}

/// The call of a case and its kind.
fn of_case(seed: u64, sizes: &[(usize, usize)], case: u64) -> (usize, Call) {
    let mut random = Random::of_case(seed, READS, case);
    let (walk, kind) = (case as usize / KINDS, case as usize % KINDS);
    let schedule = of_size(&mut random, walked(sizes, walk));
    let text = match kind.checked_sub(LENT.len()) {
        Some(damage) => damaged(&mut random, &schedule, damage),
        None if kind == DAMAGED_TOO => {
            let damage = random.below(DAMAGES.len());
            damaged(&mut random, &schedule, damage)
        }
        None => write(&schedule),
    };
    let (_, lengths) = LENT.get(kind).copied().unwrap_or(LENT[0]);
    let lengths = lengths(&mut random, schedule.n);
    let call = Call {
        text,
        tables: Tables::any(&mut random, lengths),
        numbers: any_numbers(&mut random),
    };
    (kind, call)
}

fn right(_: &mut Random, _: usize) -> [usize; 3] {
    [LARGEST; 3]
}

/// A length other than the right one, often one near it, that of document 01, n, or none at all.
fn other_length(random: &mut Random, n: usize) -> usize {
    let length = match random.below(6) {
        0 => LARGEST - 1,
        1 => LARGEST + 1,
        2 => LARGEST / 2,
        3 => n,
        4 => 0,
        _ => random.below(3 * LARGEST),
    };
    match length {
        LARGEST => 2 * LARGEST,
        _ => length,
    }
}

fn one_other(random: &mut Random, n: usize) -> [usize; 3] {
    let mut lengths = [LARGEST; 3];
    lengths[random.below(3)] = other_length(random, n);
    lengths
}

fn several_others(random: &mut Random, n: usize) -> [usize; 3] {
    let mut lengths = [0; 3].map(|_| other_length(random, n));
    if random.one_in(2) {
        lengths[random.below(3)] = LARGEST;
    }
    lengths
}

/// All of one length.
fn all_others(random: &mut Random, n: usize) -> [usize; 3] {
    [other_length(random, n); 3]
}

#[cfg(test)]
mod tests {
    use super::*;

    #[test]
    fn kinds_are_as_named() {
        let sizes = sizes();
        for case in 0..50 * KINDS as u64 {
            let (kind, call) = of_case(1, &sizes, case);
            let answer = call.answer(&by_reference);
            let [_, _, line] = answer.numbers;
            match kind {
                0 | 1 => assert_eq!((answer.accepted, line), (Ok(()), call.numbers[2])),
                2..=DAMAGED_TOO => assert_eq!((answer.accepted, line), (Err(3), 0)),
                _ => assert_ne!(answer.accepted, Err(3)),
            }
            if answer.accepted.is_err() {
                assert_eq!(answer.numbers[..2], call.numbers[..2]);
                assert_eq!(answer.tables, call.tables);
            }
        }
    }

    #[test]
    fn as_many_names_as_kinds() {
        assert_eq!(names().len(), KINDS);
    }

    #[test]
    fn a_schedule_is_put_into_tables_and_taken_from_them() {
        let mut random = Random::of_case(1, 9, 0);
        let schedule = of_size(&mut random, (7, 4));
        let mut tables = Tables::any(&mut random, [LARGEST; 3]);
        let before = tables.clone();
        tables.put(&schedule);
        assert_eq!(tables.schedule(7, 4), Some(schedule));
        assert_eq!(tables.reaches[7..], before.reaches[7..]);
        assert_eq!(tables.schedule(LARGEST + 1, 4), None);
    }
}
