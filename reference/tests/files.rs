//! Schedule files, worked by hand from document 02, K2: the text of a schedule in a lent buffer, a text read into lent
//! tables, and round trips over both.

use std::fs;
use std::path::Path;

use reference::files::{read_schedule, write_schedule};
use reference::questions::Refusal;
use reference::schedule::{bit, everyone, Schedule};
use reference::text::Refused;
use reference::{Set, LARGEST, LONGEST};

/// Case D of document 01.
const CASE_D: &str =
    "n t\n4 3\nid vote crash reach\n1 1 1 0100\n2 1 0 0000\n3 1 0 0000\n4 1 0 0000\n";

/// The schedule of case D.
fn case_d() -> Schedule {
    let mut schedule = Schedule::quiet(4, 3);
    schedule.crashes[0] = 1;
    schedule.reaches[0] = bit(2);
    schedule
}

/// The length of the longest text: see `the_longest_text`.
const LONGEST_OF_ALL: usize = 4_692;

/// What a lent buffer of this length has in it before a call: bytes that stand in no text.
fn lent(length: usize) -> Vec<u8> {
    (0..length).map(|place| 128 + (place % 100) as u8).collect()
}

/// Calls the writer with a buffer of this length. A refused call leaves all of it, an accepted one what is after the
/// length that it answers; the text before that is given.
fn written(schedule: &Schedule, length: usize) -> Result<String, Refusal> {
    let mut buffer = lent(length);
    let answer = write_schedule(schedule, &mut buffer);
    let used = answer.unwrap_or(0);
    assert_eq!(buffer[used..], lent(length)[used..]);
    let text = String::from_utf8(buffer[..used].to_vec());
    answer.map(|_| text.expect("a text is of letters"))
}

/// Three tables as they are lent.
#[derive(Clone, Debug, PartialEq, Eq)]
struct Tables {
    votes: Vec<u8>,
    crashes: Vec<u8>,
    reaches: Vec<Set>,
}

impl Tables {
    /// Tables of these lengths with entries that no accepted schedule has.
    fn lent([votes, crashes, reaches]: [usize; 3]) -> Tables {
        Tables {
            votes: vec![77; votes],
            crashes: vec![88; crashes],
            reaches: vec![Set::MAX - 5; reaches],
        }
    }

    /// Calls the reader.
    fn read(&mut self, text: &[u8]) -> Result<(usize, usize), Refused> {
        read_schedule(text, &mut self.votes, &mut self.crashes, &mut self.reaches)
    }
}

/// The number and the line of a refused reading, which leaves tables of these lengths as they were.
fn refused(text: &[u8], lengths: [usize; 3]) -> (u8, usize) {
    let mut tables = Tables::lent(lengths);
    let refused = tables.read(text).expect_err("it is refused");
    assert_eq!(tables, Tables::lent(lengths));
    (refused.refusal.number(), refused.line)
}

/// The schedule of an accepted text; the entries above n are as they were.
fn read(text: &[u8]) -> Schedule {
    let mut tables = Tables::lent([LARGEST; 3]);
    let (n, t) = tables.read(text).expect("it is accepted");
    let above = Tables::lent([LARGEST - n; 3]);
    assert_eq!(tables.votes.split_off(n), above.votes);
    assert_eq!(tables.crashes.split_off(n), above.crashes);
    assert_eq!(tables.reaches.split_off(n), above.reaches);
    Schedule {
        n,
        t,
        votes: tables.votes,
        crashes: tables.crashes,
        reaches: tables.reaches,
    }
}

#[test]
fn case_d_is_written_as_in_document_01() {
    // Lines 1 to 3 have 4, 4 and 20 bytes, and the lines of the processes 11 each.
    assert_eq!(CASE_D.len(), 28 + 4 * 11);
    for length in [72, 73, 80, 1_000, LONGEST, LONGEST + 1, 5 * LONGEST] {
        assert_eq!(written(&case_d(), length), Ok(CASE_D.to_string()));
    }
    assert_eq!(read(CASE_D.as_bytes()), case_d());
}

#[test]
fn every_shorter_buffer_is_refused_by_18() {
    for length in 0..CASE_D.len() {
        assert_eq!(written(&case_d(), length), Err(Refusal::Buffer));
    }
    assert_eq!(Refusal::Buffer.number(), 18);
}

/// A text in a buffer that holds a longer one: what is after it stays, and is no part of it.
#[test]
fn a_text_over_another_one() {
    let mut buffer = [0; 100];
    let longer = write_schedule(&Schedule::quiet(5, 3), &mut buffer);
    assert_eq!(longer, Ok(28 + 5 * 12));
    assert_eq!(write_schedule(&case_d(), &mut buffer), Ok(72));
    assert_eq!(buffer[..72], *CASE_D.as_bytes());
    assert_eq!(buffer[72..88], *b"000\n5 1 0 00000\n");
    assert_eq!(buffer[88..], [0; 12]);
    assert_eq!(read(&buffer[..72]), case_d());
    assert_eq!(refused(&buffer, [LARGEST; 3]), (9, 8));
}

/// Numbers with one and two digits in each field that may have two, both votes, and letters at both ends.
#[test]
fn numbers_and_letters() {
    let mut schedule = Schedule::quiet(10, 9);
    schedule.votes[8] = 0;
    (schedule.crashes[0], schedule.reaches[0]) = (9, bit(10));
    (schedule.crashes[8], schedule.reaches[8]) = (1, bit(8) | bit(10));
    (schedule.crashes[9], schedule.reaches[9]) = (10, bit(1) | bit(4));
    let text = "n t\n10 9\nid vote crash reach\n1 1 9 0000000001\n2 1 0 0000000000\n\
                3 1 0 0000000000\n4 1 0 0000000000\n5 1 0 0000000000\n6 1 0 0000000000\n\
                7 1 0 0000000000\n8 1 0 0000000000\n9 0 1 0000000101\n10 1 10 1001000000\n";
    assert_eq!(written(&schedule, text.len()), Ok(text.to_string()));
    assert_eq!(written(&schedule, text.len() - 1), Err(Refusal::Buffer));
    assert_eq!(read(text.as_bytes()), schedule);
}

/// 63 processes crash in round 64, and one doesn't crash: see `tests/text.rs` for its length.
#[test]
fn the_longest_text() {
    let mut schedule = Schedule::quiet(LARGEST, LARGEST - 1);
    for i in 1..LARGEST {
        schedule.crashes[i - 1] = LARGEST as u8;
        schedule.reaches[i - 1] = everyone(LARGEST) & !bit(i);
    }
    let text = written(&schedule, LONGEST_OF_ALL).expect("it fits");
    assert_eq!(text.len(), LONGEST_OF_ALL);
    assert_eq!(written(&schedule, LONGEST), Ok(text.clone()));
    for length in [0, LONGEST_OF_ALL - 1] {
        assert_eq!(written(&schedule, length), Err(Refusal::Buffer));
    }
    assert_eq!(read(text.as_bytes()), schedule);
    // One more crash makes one byte more, and one crash too many.
    schedule.crashes[LARGEST - 1] = LARGEST as u8;
    for length in [0, LONGEST_OF_ALL, LONGEST] {
        assert_eq!(written(&schedule, length), Err(Refusal::TooManyCrashes));
    }
}

/// Everything is wrong at first; then the questions are put right one after the other, and the next one refuses.
#[test]
fn the_writer_asks_in_order() {
    let mut schedule = Schedule {
        n: 3,
        t: 2,
        votes: vec![2; 5],
        crashes: vec![9; 3],
        reaches: vec![Set::MAX; 4],
    };
    let asked = |schedule: &Schedule, refusal| {
        for length in [0, 72, LONGEST] {
            assert_eq!(written(schedule, length), Err(refusal));
        }
    };
    asked(&schedule, Refusal::Processes);
    schedule.n = 4;
    asked(&schedule, Refusal::CrashLimit);
    schedule.t = 3;
    asked(&schedule, Refusal::Tables);
    schedule.votes.truncate(4);
    asked(&schedule, Refusal::Tables);
    schedule.crashes.push(9);
    for i in 1..=4 {
        asked(&schedule, Refusal::Vote);
        schedule.votes[i - 1] = 1;
        asked(&schedule, Refusal::CrashRound);
        schedule.crashes[i - 1] = 4;
        asked(&schedule, Refusal::Reach);
        schedule.reaches[i - 1] = 0;
    }
    asked(&schedule, Refusal::TooManyCrashes);
    schedule.crashes[3] = 0;
    for length in [0, 1, 71] {
        assert_eq!(written(&schedule, length), Err(Refusal::Buffer));
    }
    let text = "n t\n4 3\nid vote crash reach\n1 1 4 0000\n2 1 4 0000\n3 1 4 0000\n4 1 0 0000\n";
    assert_eq!(written(&schedule, 72), Ok(text.to_string()));
}

#[test]
fn sizes_of_any_value_are_refused_whatever_the_buffer() {
    for length in [0, 72, LONGEST] {
        for n in [0, 3, LARGEST + 1, usize::MAX] {
            let schedule = Schedule { n, ..case_d() };
            assert_eq!(written(&schedule, length), Err(Refusal::Processes));
        }
        for t in [0, 2, 4, usize::MAX] {
            let schedule = Schedule { t, ..case_d() };
            assert_eq!(written(&schedule, length), Err(Refusal::CrashLimit));
        }
    }
}

#[test]
fn each_of_the_three_tables_of_the_writer_is_n_long() {
    for length in [0, 3, 5, LARGEST] {
        let mut one_other: [Schedule; 3] = [case_d(), case_d(), case_d()];
        one_other[0].votes.resize(length, 1);
        one_other[1].crashes.resize(length, 0);
        one_other[2].reaches.resize(length, 0);
        for schedule in &one_other {
            assert_eq!(written(schedule, LONGEST), Err(Refusal::Tables));
            assert_eq!(written(schedule, 0), Err(Refusal::Tables));
        }
    }
}

#[test]
fn each_of_the_three_tables_of_the_reader_has_64_entries() {
    let too_long = vec![b'n'; LONGEST + 1];
    let texts: [&[u8]; 4] = [CASE_D.as_bytes(), b"", b"n t\n65 3\n", &too_long];
    for length in [0, 4, 32, 63, 65, 128] {
        for text in texts {
            assert_eq!(refused(text, [length, 64, 64]), (3, 0));
            assert_eq!(refused(text, [64, length, 64]), (3, 0));
            assert_eq!(refused(text, [64, 64, length]), (3, 0));
            assert_eq!(refused(text, [length; 3]), (3, 0));
        }
    }
}

/// Case D with the first place of `old` changed to `new`.
fn changed(old: &str, new: &str) -> (u8, usize) {
    assert!(CASE_D.contains(old));
    refused(CASE_D.replacen(old, new, 1).as_bytes(), [LARGEST; 3])
}

#[test]
fn a_refused_text_gives_its_number_and_line() {
    assert_eq!(refused(&[b'\n'; LONGEST + 1], [LARGEST; 3]), (8, 0));
    assert_eq!(refused(b"", [LARGEST; 3]), (9, 1));
    assert_eq!(changed("n t", "t n"), (9, 1));
    assert_eq!(changed("4 3", "65 3"), (1, 2));
    assert_eq!(changed("4 3", "4 4"), (2, 2));
    assert_eq!(changed("crash", "crush"), (9, 3));
    assert_eq!(changed("1 1 1", "1 2 1"), (4, 4));
    assert_eq!(changed("2 1 0", "2 1 5"), (5, 5));
    assert_eq!(changed("0100", "1000"), (6, 4));
    assert_eq!(changed("4 1 0", "04 1 0"), (9, 7));
    assert_eq!(changed("4 1 0 0000\n", ""), (9, 7));
    assert_eq!(changed("4 1 0 0000\n", "4 1 0 0000"), (9, 7));
    assert_eq!(changed("4 1 0 0000\n", "4 1 0 0000\n\n"), (9, 8));
    let all_crash = CASE_D.replace("1 0 0000", "1 4 0000");
    assert_eq!(refused(all_crash.as_bytes(), [LARGEST; 3]), (7, 7));
}

/// Reading what is written gives the schedule back, at every size.
#[test]
fn every_size_there_and_back() {
    for n in 4..=LARGEST {
        for t in 3..n {
            let mut schedule = Schedule::quiet(n, t);
            for i in 1..=t {
                schedule.votes[i - 1] = (i % 2) as u8;
                schedule.crashes[i - 1] = (t + 2 - i) as u8;
                schedule.reaches[i - 1] = everyone(n - i + 1) & !bit(i);
            }
            let text = written(&schedule, LONGEST).expect("it is accepted");
            assert_eq!(read(text.as_bytes()), schedule);
        }
    }
}

/// Each accepted text in `schedules` is the one that is written of its schedule, in a buffer of exactly its length and
/// in longer ones; one byte less is too few. The others are refused with the number and the line of their report.
#[test]
fn all_texts_in_schedules_back_and_there() {
    let directory = Path::new(env!("CARGO_MANIFEST_DIR")).join("../schedules");
    let entries = fs::read_dir(directory).expect("the directory is there");
    let paths = entries.map(|entry| entry.expect("the entry is there").path());
    let file = |path: &Path| fs::read(path).expect("the file is there");
    let mut accepted = 0;
    for path in paths.filter(|path| path.extension().map_or(false, |end| end == "text")) {
        let (text, report) = (file(&path), file(&path.with_extension("report")));
        if let Some(rest) = report.strip_prefix(b"refused line\n") {
            let (number, line) = refused(&text, [LARGEST; 3]);
            let expected = format!("{number} {line}\n");
            assert!(rest.starts_with(expected.as_bytes()), "{}", path.display());
        } else {
            accepted += 1;
            let schedule = read(&text);
            let letters = String::from_utf8(text.clone()).expect("it is of letters");
            for length in [text.len(), text.len() + 1, LONGEST] {
                assert_eq!(written(&schedule, length), Ok(letters.clone()));
            }
            let short = written(&schedule, text.len() - 1);
            assert_eq!(short, Err(Refusal::Buffer));
        }
    }
    assert!(accepted >= 107, "only {accepted} accepted texts");
}
