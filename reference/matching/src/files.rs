//! Wrong writers and readers that document 02's K2 invites: wrong texts, buffers that are used wrongly, questions in a
//! wrong order, entries and numbers that are given or kept wrongly, and texts and tables that are taken wrongly.

use reference::crashes::count_crashes;
use reference::questions::Refusal;
use reference::schedule::{bit, everyone, Schedule};
use reference::text::{self, HEADING_PROCESSES, HEADING_SIZES};
use reference::{Set, LARGEST, LONGEST};

use crate::limits::{OLD_LARGEST, OLD_LONGEST};
use crate::reads::{self, Numbers, Tables};
use crate::writes;
use crate::wrong::{lf_for_cr_lf, number};

/// A way of making the text of an accepted schedule.
pub type Text = fn(&Schedule) -> Vec<u8>;

/// A way of writing a schedule.
pub type WriteBy = fn(&Schedule, &mut [u8], &mut usize) -> Result<(), u8>;

/// A way of reading a text.
pub type ReadBy = fn(&[u8], &mut Tables, &mut Numbers) -> Result<(), u8>;

/// Wrong texts.
pub const TEXTS: [(&str, Text); 16] = [
    ("a reach's letters from the other end", |s| {
        text::write(&with_reaches(s, |reach| other_end(reach, s.n)))
    }),
    ("a missing last LF", |s| {
        let mut text = text::write(s);
        text.pop();
        text
    }),
    ("an empty line at the end", |s| {
        [&text::write(s)[..], b"\n"].concat()
    }),
    ("CR LF in place of LF", |s| {
        let text = text::write(s);
        let lines: Vec<&[u8]> = text.split(|byte| *byte == b'\n').collect();
        lines.join(&b"\r\n"[..])
    }),
    ("a leading zero in n", |s| {
        of_lines(s, &format!("{:02} {}", s.n, s.t), values)
    }),
    ("a leading zero in t", |s| {
        of_lines(s, &format!("{} {:02}", s.n, s.t), values)
    }),
    ("a leading zero in an own number", |s| {
        of_lines(s, &sizes(s), |i, vote, crash, reach| {
            format!("{i:02} {vote} {crash} {reach}")
        })
    }),
    ("a leading zero in a crash round", |s| {
        of_lines(s, &sizes(s), |i, vote, crash, reach| {
            format!("{i} {vote} {crash:02} {reach}")
        })
    }),
    ("own numbers from 0", |s| {
        of_lines(s, &sizes(s), |i, vote, crash, reach| {
            values(i - 1, vote, crash, reach)
        })
    }),
    ("crash rounds of one digit", |s| {
        of_lines(s, &sizes(s), |i, vote, crash, reach| {
            values(i, vote, crash % 10, reach)
        })
    }),
    ("the crash round before the vote", |s| {
        of_lines(s, &sizes(s), |i, vote, crash, reach| {
            values(i, crash, vote, reach)
        })
    }),
    ("t before n", |s| {
        of_lines(s, &format!("{} {}", s.t, s.n), values)
    }),
    ("a space at the end of a process's line", |s| {
        of_lines(s, &sizes(s), |i, vote, crash, reach| {
            values(i, vote, crash, reach) + " "
        })
    }),
    ("a reach of 64 letters", |s| {
        of_lines(s, &sizes(s), |i, vote, crash, reach| {
            values(i, vote, crash, &format!("{reach:0<64}"))
        })
    }),
    ("a reach without processes above 32", |s| {
        text::write(&with_reaches(s, |reach| reach & everyone(OLD_LARGEST)))
    }),
    ("a reach without process 64", |s| {
        text::write(&with_reaches(s, |reach| reach & !bit(LARGEST)))
    }),
];

/// A schedule with other reaches.
fn with_reaches(schedule: &Schedule, change: impl Fn(Set) -> Set) -> Schedule {
    let mut changed = schedule.clone();
    for reach in &mut changed.reaches {
        *reach = change(*reach);
    }
    changed
}

/// A reach of n letters, those from the other end.
fn other_end(reach: Set, n: usize) -> Set {
    reach.reverse_bits() >> (LARGEST - n)
}

/// The right line 2, without its LF.
fn sizes(schedule: &Schedule) -> String {
    format!("{} {}", schedule.n, schedule.t)
}

/// The right line of a process, without its LF.
fn values(i: usize, vote: u8, crash: u8, reach: &str) -> String {
    format!("{i} {vote} {crash} {reach}")
}

/// A text with this line 2, and a way to write the line of a process.
fn of_lines(
    schedule: &Schedule,
    line_2: &str,
    line: impl Fn(usize, u8, u8, &str) -> String,
) -> Vec<u8> {
    let mut text = format!("{HEADING_SIZES}\n{line_2}\n{HEADING_PROCESSES}\n");
    for i in 1..=schedule.n {
        let letter = |j| if schedule.names(i, j) { '1' } else { '0' };
        let reach: String = (1..=schedule.n).map(letter).collect();
        let (vote, crash) = (schedule.votes[i - 1], schedule.crashes[i - 1]);
        text += &line(i, vote, crash, &reach);
        text.push('\n');
    }
    text.into_bytes()
}

/// A writer that asks rightly, and makes the text in a way.
pub fn writing(text: Text) -> impl Fn(&Schedule, &mut [u8], &mut usize) -> Result<(), u8> + Sync {
    move |schedule, buffer, used| {
        schedule.ask().map_err(Refusal::number)?;
        let text = text(schedule);
        let start = buffer.get_mut(..text.len()).ok_or(TOO_SHORT)?;
        start.copy_from_slice(&text);
        *used = text.len();
        Ok(())
    }
}

/// Number 18.
const TOO_SHORT: u8 = Refusal::Buffer as u8;

/// Wrong uses of the buffer and of the number for its length: first those that show where the text is written into a
/// longer buffer, then the others.
pub const BUFFERS: [(&str, WriteBy); 15] = [
    ("the byte after the text changed", |s, buffer, used| {
        writes::by_reference(s, buffer, used)?;
        buffer.iter_mut().skip(*used).take(1).for_each(|b| *b = 0);
        Ok(())
    }),
    ("all bytes after the text changed", |s, buffer, used| {
        writes::by_reference(s, buffer, used)?;
        buffer[*used..].fill(b' ');
        Ok(())
    }),
    ("the buffer's length given as used", |s, buffer, used| {
        writes::by_reference(s, buffer, used)?;
        *used = buffer.len();
        Ok(())
    }),
    ("one byte less given as used", |s, buffer, used| {
        writes::by_reference(s, buffer, used)?;
        *used -= 1;
        Ok(())
    }),
    ("the length kept in a byte", |s, buffer, used| {
        writes::by_reference(s, buffer, used)?;
        *used %= 256;
        Ok(())
    }),
    ("the length added to used", |s, buffer, used| {
        let before = *used;
        writes::by_reference(s, buffer, used)?;
        *used = used.wrapping_add(before);
        Ok(())
    }),
    ("the text at the end of the buffer", |s, buffer, used| {
        writes::by_reference(s, buffer, used)?;
        let unused = buffer.len() - *used;
        buffer.rotate_right(unused);
        Ok(())
    }),
    ("one byte too few accepted", |s, buffer, used| {
        let length = buffer.len();
        or_too_short(s, buffer, used, |text, buffer, used| {
            if text.len() == length + 1 {
                buffer.copy_from_slice(&text[..length]);
                *used = length;
                return Ok(());
            }
            Err(TOO_SHORT)
        })
    }),
    ("as much written as there is room for", |s, buffer, used| {
        or_too_short(s, buffer, used, |text, buffer, used| {
            *used = buffer.len();
            buffer.copy_from_slice(&text[..buffer.len()]);
            Ok(())
        })
    }),
    ("18, and as much written", |s, buffer, used| {
        or_too_short(s, buffer, used, |text, buffer, _| {
            buffer.copy_from_slice(&text[..buffer.len()]);
            Err(TOO_SHORT)
        })
    }),
    (
        "18, and the length given that is needed",
        |s, buffer, used| {
            or_too_short(s, buffer, used, |text, _, used| {
                *used = text.len();
                Err(TOO_SHORT)
            })
        },
    ),
    ("0 given as used on a refusal", |s, buffer, used| {
        let answer = writes::by_reference(s, buffer, used);
        if answer.is_err() {
            *used = 0;
        }
        answer
    }),
    (
        "18 for a buffer of exactly the length",
        |s, buffer, used| enough_room(s, buffer, used, |text, room| room > text),
    ),
    ("18 for a buffer below LONGEST bytes", |s, buffer, used| {
        enough_room(s, buffer, used, |_, room| room >= LONGEST)
    }),
    ("18 for a text over 2,048 bytes", |s, buffer, used| {
        enough_room(s, buffer, used, |text, room| {
            text <= OLD_LONGEST && text <= room
        })
    }),
];

/// How many of these show where the text is written into a longer buffer.
pub const IN_LONGER: usize = 7;

/// The right writer, but for buffers that are too short for the text of an accepted schedule.
fn or_too_short(
    schedule: &Schedule,
    buffer: &mut [u8],
    used: &mut usize,
    too_short: impl Fn(&[u8], &mut [u8], &mut usize) -> Result<(), u8>,
) -> Result<(), u8> {
    match writes::by_reference(schedule, buffer, used) {
        Err(TOO_SHORT) => too_short(&text::write(schedule), buffer, used),
        answer => answer,
    }
}

/// The right writer with another question 18, of the lengths of the text and the buffer: a "no" where there is room.
fn enough_room(
    schedule: &Schedule,
    buffer: &mut [u8],
    used: &mut usize,
    enough: impl Fn(usize, usize) -> bool,
) -> Result<(), u8> {
    let accepted = schedule.ask().is_ok();
    if accepted && !enough(text::write(schedule).len(), buffer.len()) {
        return Err(TOO_SHORT);
    }
    writes::by_reference(schedule, buffer, used)
}

/// Wrong questions before the writing: numbers in a wrong order, a buffer that is changed before the last question, and
/// schedules that are taken or refused wrongly.
pub const QUESTIONS: [(&str, WriteBy); 12] = [
    ("18 asked before 7", |s, buffer, used| {
        asked_early(s, buffer, used, &[7])
    }),
    ("18 asked before 4 to 7", |s, buffer, used| {
        asked_early(s, buffer, used, &[4, 5, 6, 7])
    }),
    ("18 asked first for an empty buffer", |s, buffer, used| {
        if buffer.is_empty() {
            return Err(TOO_SHORT);
        }
        writes::by_reference(s, buffer, used)
    }),
    (
        "the headings written before 7 is asked",
        |s, buffer, used| {
            let answer = writes::by_reference(s, buffer, used);
            if let (Err(7), Some(start)) = (answer, buffer.get_mut(..HEADING_SIZES.len())) {
                start.copy_from_slice(HEADING_SIZES.as_bytes());
            }
            answer
        },
    ),
    ("7 asked before later processes", |s, buffer, used| {
        let answer = writes::by_reference(s, buffer, used);
        if let Err(4..=6) = answer {
            let right = (1..=s.n).take_while(|i| s.ask_process(*i).is_ok());
            let crashes = &s.crashes[..right.count()];
            if count_crashes(s.t, crashes).count > s.t {
                return Err(7);
            }
        }
        answer
    }),
    ("a longer table of votes let pass", |s, buffer, used| {
        let mut changed = s.clone();
        changed.votes.truncate(s.n);
        writes::by_reference(&changed, buffer, used)
    }),
    (
        "a longer table of crash rounds let pass",
        |s, buffer, used| {
            let mut changed = s.clone();
            changed.crashes.truncate(s.n);
            writes::by_reference(&changed, buffer, used)
        },
    ),
    ("a longer table of reaches let pass", |s, buffer, used| {
        let mut changed = s.clone();
        changed.reaches.truncate(s.n);
        writes::by_reference(&changed, buffer, used)
    }),
    ("reaches above n let pass", |s, buffer, used| {
        let named = everyone(s.n.min(LARGEST));
        let changed = with_reaches(s, |reach| reach & named);
        writes::by_reference(&changed, buffer, used)
    }),
    ("any vote but 0 taken for 1", |s, buffer, used| {
        let mut changed = s.clone();
        for vote in &mut changed.votes {
            *vote = (*vote).min(1);
        }
        writes::by_reference(&changed, buffer, used)
    }),
    ("n above 32 still refused", |s, buffer, used| {
        if s.n > OLD_LARGEST {
            return Err(Refusal::Processes.number());
        }
        writes::by_reference(s, buffer, used)
    }),
    ("n = 65 let in", |s, buffer, used| {
        let mut changed = s.clone();
        if s.n == LARGEST + 1 {
            changed.n = LARGEST;
            changed.votes.truncate(LARGEST);
            changed.crashes.truncate(LARGEST);
            changed.reaches.truncate(LARGEST);
        }
        writes::by_reference(&changed, buffer, used)
    }),
];

/// 18 asked before these numbers.
fn asked_early(
    schedule: &Schedule,
    buffer: &mut [u8],
    used: &mut usize,
    before: &[u8],
) -> Result<(), u8> {
    match writes::by_reference(schedule, buffer, used) {
        Err(number) if before.contains(&number) && text::write(schedule).len() > buffer.len() => {
            Err(TOO_SHORT)
        }
        answer => answer,
    }
}

/// Wrong readers of accepted texts.
pub const ACCEPTED: [(&str, ReadBy); 13] = [
    ("the entry after n changed", |text, tables, numbers| {
        reads::by_reference(text, tables, numbers)?;
        if let Some(vote) = tables.votes.get_mut(numbers[0]) {
            *vote = vote.wrapping_add(1);
        }
        Ok(())
    }),
    ("all entries above n emptied", |text, tables, numbers| {
        reads::by_reference(text, tables, numbers)?;
        tables.votes[numbers[0]..].fill(0);
        tables.crashes[numbers[0]..].fill(0);
        tables.reaches[numbers[0]..].fill(0);
        Ok(())
    }),
    (
        "the last table's entries above n emptied",
        |text, tables, numbers| {
            reads::by_reference(text, tables, numbers)?;
            tables.reaches[numbers[0]..].fill(0);
            Ok(())
        },
    ),
    ("process n left out", |text, tables, numbers| {
        let before = tables.clone();
        reads::by_reference(text, tables, numbers)?;
        let last = numbers[0] - 1;
        tables.votes[last] = before.votes[last];
        tables.crashes[last] = before.crashes[last];
        tables.reaches[last] = before.reaches[last];
        Ok(())
    }),
    (
        "a reach joined with what stood there",
        |text, tables, numbers| {
            let before = tables.clone();
            reads::by_reference(text, tables, numbers)?;
            let entries = tables.reaches.iter_mut().zip(before.reaches);
            entries.for_each(|(reach, before)| *reach |= before);
            Ok(())
        },
    ),
    (
        "the line set to 0 where accepted",
        |text, tables, numbers| {
            reads::by_reference(text, tables, numbers)?;
            numbers[2] = 0;
            Ok(())
        },
    ),
    (
        "the last line given where accepted",
        |text, tables, numbers| {
            reads::by_reference(text, tables, numbers)?;
            numbers[2] = 3 + numbers[0];
            Ok(())
        },
    ),
    ("n and t exchanged", |text, tables, numbers| {
        reads::by_reference(text, tables, numbers)?;
        numbers.swap(0, 1);
        Ok(())
    }),
    (
        "a reach's letters from the other end",
        |text, tables, numbers| read_reaches(text, tables, numbers, other_end),
    ),
    ("a reach cut to 32 bits", |text, tables, numbers| {
        read_reaches(text, tables, numbers, |reach, _| {
            reach & everyone(OLD_LARGEST)
        })
    }),
    ("a reach without process 64", |text, tables, numbers| {
        read_reaches(text, tables, numbers, |reach, _| reach & !bit(LARGEST))
    }),
    ("n above 32 still refused", |text, tables, numbers| {
        let before = tables.clone();
        reads::by_reference(text, tables, numbers)?;
        if numbers[0] > OLD_LARGEST {
            *tables = before;
            numbers[2] = 2;
            return Err(Refusal::Processes.number());
        }
        Ok(())
    }),
    ("tables of 32 asked for", |text, tables, numbers| {
        let lengths = [&tables.votes, &tables.crashes].map(Vec::len);
        if lengths != [OLD_LARGEST; 2] || tables.reaches.len() != OLD_LARGEST {
            numbers[2] = 0;
            return Err(Refusal::Tables.number());
        }
        reads::by_reference(text, tables, numbers)
    }),
];

/// Reads rightly, and then changes the reaches, each by n.
fn read_reaches(
    text: &[u8],
    tables: &mut Tables,
    numbers: &mut Numbers,
    change: impl Fn(Set, usize) -> Set,
) -> Result<(), u8> {
    reads::by_reference(text, tables, numbers)?;
    let n = numbers[0];
    for reach in &mut tables.reaches[..n] {
        *reach = change(*reach, n);
    }
    Ok(())
}

/// Wrong readers that take texts that should be refused, so that an accepted text isn't the one that is written again.
pub const TAKEN: [(&str, ReadBy); 4] = [
    ("a leading zero let pass", |text, tables, numbers| {
        reads::by_reference(&without_leading_zeros(text), tables, numbers)
    }),
    ("a missing last LF let pass", |text, tables, numbers| {
        let whole = match text.last() {
            Some(b'\n') | None => text.to_vec(),
            Some(_) => [text, b"\n"].concat(),
        };
        reads::by_reference(&whole, tables, numbers)
    }),
    ("CR LF taken for LF", |text, tables, numbers| {
        reads::by_reference(&lf_for_cr_lf(text), tables, numbers)
    }),
    ("bytes after the end let pass", |text, tables, numbers| {
        of_lines_before(text, tables, numbers, |answer| answer.is_ok())
    }),
];

/// A text without the leading zeros of the numbers with two digits.
fn without_leading_zeros(text: &[u8]) -> Vec<u8> {
    let lines = text.split(|byte| *byte == b'\n');
    let lines: Vec<Vec<u8>> = lines.map(line_without_leading_zeros).collect();
    lines.join(&b'\n')
}

/// The reach, which has four letters or more, stays as it is.
fn line_without_leading_zeros(line: &[u8]) -> Vec<u8> {
    let fields = line.split(|byte| *byte == b' ');
    let fields: Vec<&[u8]> = fields
        .map(|field| match field {
            [b'0', b'0'..=b'9'] => &field[1..],
            _ => field,
        })
        .collect();
    fields.join(&b' ')
}

/// Wrong readers of texts that are refused, and of tables of a wrong length.
pub const REFUSED: [(&str, ReadBy); 18] = [
    ("the lines counted from 0", |text, tables, numbers| {
        refused(text, tables, numbers, |_, numbers, _| {
            numbers[2] = numbers[2].saturating_sub(1);
        })
    }),
    (
        "the line after the refused one given",
        |text, tables, numbers| {
            refused(text, tables, numbers, |_, numbers, number| {
                numbers[2] += usize::from(number == 6);
            })
        },
    ),
    (
        "number 7 with the line of its crash",
        |text, tables, numbers| {
            let answer = reads::by_reference(text, tables, numbers);
            if answer == Err(7) {
                let crashes: Vec<u8> = (4..=numbers[2]).map(|k| number(text, k, 2) as u8).collect();
                numbers[2] = 3 + count_crashes(number(text, 2, 1), &crashes).looked_at;
            }
            answer
        },
    ),
    (
        "number 7 asked before the end of the text",
        |text, tables, numbers| of_lines_before(text, tables, numbers, |answer| answer == Err(7)),
    ),
    ("no line given with number 3", |text, tables, numbers| {
        let line = numbers[2];
        refused(text, tables, numbers, |_, numbers, number| {
            if number == 3 {
                numbers[2] = line;
            }
        })
    }),
    ("n and t given on a refusal", |text, tables, numbers| {
        refused(text, tables, numbers, |_, numbers, _| {
            if numbers[2] > 2 {
                (numbers[0], numbers[1]) = (number(text, 2, 0), number(text, 2, 1));
            }
        })
    }),
    ("n and t set to 0 on a refusal", |text, tables, numbers| {
        refused(text, tables, numbers, |_, numbers, _| {
            (numbers[0], numbers[1]) = (0, 0);
        })
    }),
    (
        "the lines before a refused one read",
        |text, tables, numbers| {
            refused(text, tables, numbers, |tables, numbers, _| {
                for k in 4..numbers[2] {
                    tables.votes[k - 4] = number(text, k, 1) as u8;
                }
            })
        },
    ),
    ("a table changed on refusal 7", |text, tables, numbers| {
        refused(text, tables, numbers, |tables, _, number| {
            if number == 7 {
                tables.crashes[0] = tables.crashes[0].wrapping_add(1);
            }
        })
    }),
    (
        "an entry above n changed on a refusal",
        |text, tables, numbers| {
            refused(text, tables, numbers, |tables, _, _| {
                if let Some(reach) = tables.reaches.last_mut() {
                    *reach ^= 1;
                }
            })
        },
    ),
    ("number 8 asked before 3", |text, tables, numbers| {
        refused_first(text, tables, numbers, |number| number == 8)
    }),
    (
        "number 3 asked after the text's questions",
        |text, tables, numbers| refused_first(text, tables, numbers, |_| true),
    ),
    ("any table of votes let pass", |text, tables, numbers| {
        with_lengths(text, tables, numbers, |[_, crashes, reaches]| {
            [LARGEST, crashes, reaches]
        })
    }),
    (
        "any table of crash rounds let pass",
        |text, tables, numbers| {
            with_lengths(text, tables, numbers, |[votes, _, reaches]| {
                [votes, LARGEST, reaches]
            })
        },
    ),
    ("any table of reaches let pass", |text, tables, numbers| {
        with_lengths(text, tables, numbers, |[votes, crashes, _]| {
            [votes, crashes, LARGEST]
        })
    }),
    ("longer tables let pass", |text, tables, numbers| {
        with_lengths(text, tables, numbers, |lengths| {
            lengths.map(|l| l.min(LARGEST))
        })
    }),
    (
        "a text of LONGEST + 1 bytes read",
        |text, tables, numbers| {
            let read = match text.len() {
                length if length == LONGEST + 1 => &text[..LONGEST],
                _ => text,
            };
            reads::by_reference(read, tables, numbers)
        },
    ),
    (
        "texts over 2,048 bytes still refused",
        |text, tables, numbers| {
            let too_long = [0; LONGEST + 1];
            let read = match text.len() {
                0..=OLD_LONGEST => text,
                _ => &too_long,
            };
            reads::by_reference(read, tables, numbers)
        },
    ),
];

/// The right reader, with a change of what is lent after a refusal by its number.
fn refused(
    text: &[u8],
    tables: &mut Tables,
    numbers: &mut Numbers,
    change: impl Fn(&mut Tables, &mut Numbers, u8),
) -> Result<(), u8> {
    let answer = reads::by_reference(text, tables, numbers);
    if let Err(number) = answer {
        change(tables, numbers, number);
    }
    answer
}

/// The right reader; but where a line is refused with 9, the answer to the lines before it counts if it is as given.
fn of_lines_before(
    text: &[u8],
    tables: &mut Tables,
    numbers: &mut Numbers,
    counts: impl Fn(Result<(), u8>) -> bool,
) -> Result<(), u8> {
    let (mut other_tables, mut other_numbers) = (tables.clone(), *numbers);
    let answer = reads::by_reference(text, tables, numbers);
    if answer == Err(9) {
        let lines = text.split_inclusive(|byte| *byte == b'\n');
        let before: Vec<u8> = lines.take(numbers[2] - 1).flatten().copied().collect();
        let other = reads::by_reference(&before, &mut other_tables, &mut other_numbers);
        if counts(other) {
            (*tables, *numbers) = (other_tables, other_numbers);
            return other;
        }
    }
    answer
}

/// The right reader; but where a table is of a wrong length, the refusal of the text goes first if it is as given.
fn refused_first(
    text: &[u8],
    tables: &mut Tables,
    numbers: &mut Numbers,
    first: impl Fn(u8) -> bool,
) -> Result<(), u8> {
    let answer = reads::by_reference(text, tables, numbers);
    if let (Err(3), Err(refused)) = (answer, text::read(text)) {
        let number = refused.refusal.number();
        if first(number) {
            numbers[2] = refused.line;
            return Err(number);
        }
    }
    answer
}

/// The right reader with tables of other lengths than those given; what there is room for is read.
fn with_lengths(
    text: &[u8],
    tables: &mut Tables,
    numbers: &mut Numbers,
    lengths: impl Fn([usize; 3]) -> [usize; 3],
) -> Result<(), u8> {
    let given = [
        tables.votes.len(),
        tables.crashes.len(),
        tables.reaches.len(),
    ];
    let [votes, crashes, reaches] = lengths(given);
    let mut taken = tables.clone();
    taken.votes.resize(votes, 0);
    taken.crashes.resize(crashes, 0);
    taken.reaches.resize(reaches, 0);
    let answer = reads::by_reference(text, &mut taken, numbers);
    put_back(&mut tables.votes, &taken.votes);
    put_back(&mut tables.crashes, &taken.crashes);
    put_back(&mut tables.reaches, &taken.reaches);
    answer
}

/// Puts the entries of a table into another one as far as there is room.
fn put_back<T: Copy>(table: &mut [T], taken: &[T]) {
    for (entry, taken) in table.iter_mut().zip(taken) {
        *entry = *taken;
    }
}

#[cfg(test)]
mod tests {
    use super::*;

    /// The schedule of case D.
    fn case_d() -> Schedule {
        let mut schedule = Schedule::quiet(4, 3);
        (schedule.crashes[0], schedule.reaches[0]) = (1, bit(2));
        schedule
    }

    /// The lines of processes 2 to 4 in its text.
    const OTHERS: &str = "2 1 0 0000\n3 1 0 0000\n4 1 0 0000\n";

    /// What each of the wrong texts of case D has in the places where it is wrong, in their order.
    #[test]
    fn wrong_texts() {
        let texts = TEXTS.map(|(_, text)| String::from_utf8(text(&case_d())).unwrap());
        let right = |line_2: &str, line_4: &str| {
            format!("n t\n{line_2}\nid vote crash reach\n{line_4}\n{OTHERS}")
        };
        let whole = right("4 3", "1 1 1 0100");
        assert_eq!(whole.as_bytes(), text::write(&case_d()));
        assert_eq!(texts[0], right("4 3", "1 1 1 0010"));
        assert_eq!(texts[1].clone() + "\n", whole);
        assert_eq!(texts[2], whole.clone() + "\n");
        assert_eq!(texts[3], whole.replace('\n', "\r\n"));
        assert_eq!(texts[4], right("04 3", "1 1 1 0100"));
        assert_eq!(texts[5], right("4 03", "1 1 1 0100"));
        assert!(texts[6].ends_with("\n04 1 0 0000\n"));
        assert!(texts[7].ends_with("\n4 1 00 0000\n"));
        assert!(texts[8].ends_with("\n3 1 0 0000\n"));
        assert!(texts[10].ends_with("\n4 0 1 0000\n"));
        assert_eq!(texts[11], right("3 4", "1 1 1 0100"));
        assert!(texts[12].ends_with("\n4 1 0 0000 \n"));
        assert!(texts[13].ends_with(&format!("\n4 1 0 {}\n", "0".repeat(64))));
        // These need larger clusters.
        for place in [9, 14, 15] {
            assert_eq!(texts[place], whole);
        }
    }

    /// The answer of a wrong use of a buffer of this length for case D, whose text has 72 bytes, and what is lent after
    /// it: the buffer, lent with 200 in each byte, and the number for the length, lent as 1,000.
    fn used(place: usize, length: usize) -> (Result<(), u8>, Vec<u8>, usize) {
        let (mut buffer, mut used) = (vec![200; length], 1_000);
        let (_, write) = BUFFERS[place];
        let answer = write(&case_d(), &mut buffer, &mut used);
        (answer, buffer, used)
    }

    #[test]
    fn wrong_uses_of_the_buffer() {
        let text = text::write(&case_d());
        let with_tail = |tail: &[u8]| [&text[..], tail].concat();
        let changed = with_tail(&[0, 200, 200]);
        assert_eq!(used(0, 75), (Ok(()), changed, 72));
        assert_eq!(used(1, 74), (Ok(()), with_tail(b"  "), 72));
        let right = with_tail(&[200; 8]);
        let lengths = [(2, 80), (3, 71), (4, 72), (5, 1_072)];
        for (place, length) in lengths {
            assert_eq!(used(place, 80), (Ok(()), right.clone(), length));
        }
        assert_eq!(used(6, 73).1[1..], text);
        assert_eq!(used(7, 71), (Ok(()), text[..71].to_vec(), 71));
        assert_eq!(used(7, 70), (Err(18), vec![200; 70], 1_000));
        assert_eq!(used(8, 9), (Ok(()), text[..9].to_vec(), 9));
        assert_eq!(used(9, 9), (Err(18), text[..9].to_vec(), 1_000));
        assert_eq!(used(10, 9), (Err(18), vec![200; 9], 72));
        assert_eq!(used(11, 9), (Err(18), vec![200; 9], 0));
        assert_eq!(used(12, 72), (Err(18), vec![200; 72], 1_000));
        assert_eq!(used(13, 8_191), (Err(18), vec![200; 8_191], 1_000));
        assert_eq!(used(14, 80), (Ok(()), right, 72));
    }

    /// The number that each of the wrong questions gives, 0 for none.
    fn numbers(schedule: &Schedule, length: usize) -> [u8; 12] {
        QUESTIONS.map(|(_, write)| {
            let (mut buffer, mut used) = (vec![200; length], 1_000);
            write(schedule, &mut buffer, &mut used).map_or_else(|number| number, |()| 0)
        })
    }

    #[test]
    fn wrong_questions_of_a_writer() {
        assert_eq!(numbers(&case_d(), 72), [0; 12]);
        let mut schedule = Schedule::quiet(4, 3);
        schedule.crashes.fill(4);
        let right = [7; 12];
        assert_eq!(numbers(&schedule, 72), right);
        let expected = [18, 18, 7, 7, 7, 7, 7, 7, 7, 7, 7, 7];
        assert_eq!(numbers(&schedule, 71), expected);
        // A vote 2 of process 4, in no buffer: number 4 is right.
        let mut schedule = case_d();
        schedule.votes[3] = 2;
        let expected = [4, 18, 18, 4, 4, 4, 4, 4, 4, 18, 4, 4];
        assert_eq!(numbers(&schedule, 0), expected);
        let large = Schedule::quiet(LARGEST + 1, 3);
        assert_eq!(numbers(&large, LONGEST)[10..], [1, 0]);
    }

    /// The answer of a reader to a text, its number or 0 for none, and the numbers and the tables of these lengths
    /// after it, which are lent with 9 everywhere.
    fn answer((_, read): (&str, ReadBy), text: &str, lengths: [usize; 3]) -> (u8, Numbers, Tables) {
        let mut tables = Tables {
            votes: vec![9; lengths[0]],
            crashes: vec![9; lengths[1]],
            reaches: vec![9; lengths[2]],
        };
        let mut numbers = [9; 3];
        let accepted = read(text.as_bytes(), &mut tables, &mut numbers);
        (accepted.err().unwrap_or(0), numbers, tables)
    }

    #[test]
    fn wrong_readers_of_an_accepted_text() {
        let text = String::from_utf8(text::write(&case_d())).unwrap();
        let found = ACCEPTED.map(|reader| answer(reader, &text, [LARGEST; 3]));
        let tables = |place: usize| &found[place].2;
        assert_eq!(tables(0).votes[..6], [1, 1, 1, 1, 10, 9]);
        assert_eq!(tables(1).votes[3..6], [1, 0, 0]);
        assert_eq!((tables(2).crashes[4], tables(2).reaches[4]), (9, 0));
        assert_eq!(tables(3).crashes[2..5], [0, 9, 9]);
        assert_eq!(tables(4).reaches[0], bit(2) | 9);
        assert_eq!(tables(8).reaches[0], bit(3));
        let given: Vec<(u8, Numbers)> = found[5..8].iter().map(|f| (f.0, f.1)).collect();
        let expected = [(0, [4, 3, 0]), (0, [4, 3, 7]), (0, [3, 4, 9])];
        assert_eq!(given, expected);
        assert_eq!((found[12].0, found[12].1), (3, [9, 9, 0]));
    }

    #[test]
    fn texts_that_are_taken_wrongly() {
        let text = String::from_utf8(text::write(&case_d())).unwrap();
        let taken = [
            text.replace("2 1 0", "2 01 00"),
            text.trim_end().to_string(),
            text.replace('\n', "\r\n"),
            text.clone() + "5",
        ];
        for (reader, text) in TAKEN.into_iter().zip(taken) {
            let (number, numbers, _) = answer(reader, &text, [LARGEST; 3]);
            assert_eq!((number, numbers), (0, [4, 3, 9]), "{}", reader.0);
            let right = answer(("", reads::by_reference), &text, [LARGEST; 3]);
            assert_eq!(right.0, 9);
        }
    }

    #[test]
    fn wrong_readers_of_a_refused_text() {
        let text = String::from_utf8(text::write(&case_d())).unwrap();
        // The reach of process 2, without a crash: number 6, line 5.
        let refused = text.replace("2 1 0 0000", "2 1 0 0001");
        let found = REFUSED.map(|reader| answer(reader, &refused, [LARGEST; 3]));
        let lines = [4, 6, 5, 5, 5, 5, 5, 5, 5, 5, 5, 5, 5, 5, 5, 5, 5, 5];
        assert_eq!(found.clone().map(|(_, numbers, _)| numbers[2]), lines);
        assert_eq!(found.clone().map(|(number, _, _)| number), [6; 18]);
        assert_eq!(found[5].1, [4, 3, 5]);
        assert_eq!(found[6].1, [0, 0, 5]);
        assert_eq!(found[7].2.votes[..2], [1, 9]);
        assert_eq!(found[9].2.reaches[63], 8);
        // A table too short for it: number 3, line 0.
        let found = REFUSED.map(|reader| answer(reader, &refused, [LARGEST, 3, LARGEST]));
        assert_eq!((found[0].0, found[0].1), (3, [9, 9, 0]));
        assert_eq!((found[4].0, found[4].1), (3, [9, 9, 9]));
        assert_eq!((found[11].0, found[11].1), (6, [9, 9, 5]));
        assert_eq!((found[13].0, found[13].1), (6, [9, 9, 5]));
    }
}
