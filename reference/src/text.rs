//! The schedule text: reading, writing, and a line of it (document 01, "Schedule text and report" and the text part of
//! "Questions before work", but for number 3; the calls with a lent buffer and lent tables are in
//! [`files`](crate::files)).

use crate::questions::{ask, ask_sizes, Refusal};
use crate::schedule::{bit, Schedule};
use crate::{Set, LONGEST};

/// The names of line 1.
pub const HEADING_SIZES: &str = "n t";

/// The names of line 3.
pub const HEADING_PROCESSES: &str = "id vote crash reach";

/// The byte that ends each line.
const LF: u8 = b'\n';

/// A refused text: the number of the question and of the line, 0 for the whole text.
#[derive(Clone, Copy, Debug, PartialEq, Eq)]
pub struct Refused {
    /// The question answered by no.
    pub refusal: Refusal,
    /// The line where it was.
    pub line: usize,
}

/// The schedule of a text.
pub fn read(text: &[u8]) -> Result<Schedule, Refused> {
    let mut reader = Reader {
        rest: text,
        line: 0,
    };
    reader.ask(ask(text.len() <= LONGEST, Refusal::TooLong))?;
    reader.heading(HEADING_SIZES)?;
    let (n, t) = reader.sizes()?;
    reader.heading(HEADING_PROCESSES)?;
    let mut schedule = Schedule::quiet(n, t);
    for i in 1..=n {
        reader.process(&mut schedule, i)?;
    }
    reader.end()?;
    reader.ask(schedule.ask_crashes())?;
    Ok(schedule)
}

/// The part of the text that isn't read yet, and the number of the last line that was begun.
struct Reader<'a> {
    rest: &'a [u8],
    line: usize,
}

impl<'a> Reader<'a> {
    /// Puts the number of the current line to a refusal.
    fn ask<T>(&self, answer: Result<T, Refusal>) -> Result<T, Refused> {
        let line = self.line;
        answer.map_err(|refusal| Refused { refusal, line })
    }

    /// Refuses the current line with 9 if it isn't of its form.
    fn form<T>(&self, read: Option<T>) -> Result<T, Refused> {
        self.ask(read.ok_or(Refusal::Form))
    }

    /// The next line without its LF; a missing line or a line without LF isn't of its form.
    fn next(&mut self) -> Result<&'a [u8], Refused> {
        self.line += 1;
        let length = self.form(self.rest.iter().position(|byte| *byte == LF))?;
        let line = &self.rest[..length];
        self.rest = &self.rest[length + 1..];
        Ok(line)
    }

    /// A heading line, compared letter for letter.
    fn heading(&mut self, names: &str) -> Result<(), Refused> {
        let line = self.next()?;
        self.form((line == names.as_bytes()).then_some(()))
    }

    /// Line 2: n and t.
    fn sizes(&mut self) -> Result<(usize, usize), Refused> {
        let line = self.next()?;
        let (n, t) = self.form(sizes_of_line(line))?;
        self.ask(ask_sizes(n, t))?;
        Ok((n, t))
    }

    /// Line 3 + i: the values of process i, into the schedule.
    fn process(&mut self, schedule: &mut Schedule, i: usize) -> Result<(), Refused> {
        let line = self.next()?;
        let values = self.form(process_of_line(line, schedule.n, i))?;
        (
            schedule.votes[i - 1],
            schedule.crashes[i - 1],
            schedule.reaches[i - 1],
        ) = values;
        self.ask(schedule.ask_process(i))
    }

    /// Nothing follows the line read last; otherwise the line after it is refused.
    fn end(&self) -> Result<(), Refused> {
        match self.rest {
            [] => Ok(()),
            _ => Err(Refused {
                refusal: Refusal::Form,
                line: self.line + 1,
            }),
        }
    }
}

/// The values of line 2, if it is of its form.
fn sizes_of_line(line: &[u8]) -> Option<(usize, usize)> {
    let [n, t] = fields(line)?;
    Some((usize::from(number(n)?), usize::from(number(t)?)))
}

/// Vote, crash round and reach of the line of process i, if it is of its form.
fn process_of_line(line: &[u8], n: usize, i: usize) -> Option<(u8, u8, Set)> {
    let [own, vote, crash, reach] = fields(line)?;
    let of_its_form = usize::from(number(own)?) == i && vote.len() == 1 && reach.len() == n;
    if !of_its_form {
        return None;
    }
    Some((number(vote)?, number(crash)?, reach_of_letters(reach)?))
}

/// The N fields of a line, split by one space each.
fn fields<const N: usize>(line: &[u8]) -> Option<[&[u8]; N]> {
    let mut parts = line.split(|byte| *byte == b' ');
    let mut fields: [&[u8]; N] = [&[]; N];
    for field in &mut fields {
        *field = parts.next()?;
    }
    parts.next().is_none().then_some(fields)
}

/// A number of one or two digits without a leading zero.
fn number(field: &[u8]) -> Option<u8> {
    match field {
        [ones @ b'0'..=b'9'] => Some(ones - b'0'),
        [tens @ b'1'..=b'9', ones @ b'0'..=b'9'] => Some((tens - b'0') * 10 + (ones - b'0')),
        _ => None,
    }
}

/// A reach of letters 0 and 1, place j for process j.
fn reach_of_letters(letters: &[u8]) -> Option<Set> {
    let mut reach = 0;
    for (place, letter) in letters.iter().enumerate() {
        match letter {
            b'0' => {}
            b'1' => reach |= bit(place + 1),
            _ => return None,
        }
    }
    Some(reach)
}

/// Line k of a text without its LF; empty for k = 0 or a line that isn't there. Bytes after the last LF count as a
/// last line.
pub fn line(text: &[u8], k: usize) -> &[u8] {
    match k {
        0 => &[],
        _ => text
            .split(|byte| *byte == LF)
            .nth(k - 1)
            .unwrap_or_default(),
    }
}

/// The text of a schedule whose tables are n long, n at most [`LARGEST`](crate::LARGEST). It is read back as the same
/// schedule if that is accepted, and an accepted text is the one of its schedule (document 02, K2).
pub fn write(schedule: &Schedule) -> Vec<u8> {
    let (n, t) = (schedule.n, schedule.t);
    let mut text = format!("{HEADING_SIZES}\n{n} {t}\n{HEADING_PROCESSES}\n");
    for i in 1..=n {
        let (vote, crash) = (schedule.votes[i - 1], schedule.crashes[i - 1]);
        let letter = |j| if schedule.names(i, j) { '1' } else { '0' };
        let reach: String = (1..=n).map(letter).collect();
        text += &format!("{i} {vote} {crash} {reach}\n");
    }
    text.into_bytes()
}
