//! The calls on bare texts and tables: what they write, and what they leave as it was.
use fcwfa::bytes::{read_schedule, write_schedule, READ_LINE, READ_N, READ_T};
use fcwfa::{Set, LARGEST, LONGEST_TEXT, LONGEST_WRITTEN};

/// Case D as its text, and its tables.
const CASE_D: &[u8] = include_bytes!("../../../schedules/case_d.text");
const VOTES: [u8; 4] = [1; 4];
const CRASHES: [u8; 4] = [1, 0, 0, 0];
const REACHES: [Set; 4] = [0b0010, 0, 0, 0];

/// The byte and the number that stand in what is lent.
const BYTE: u8 = 0xa5;
const NUMBER: usize = 77;

/// Writes case D into a buffer of this length: what is answered, the buffer afterwards, and the length used.
fn write_case_d(length: usize) -> (Result<(), u8>, Vec<u8>, usize) {
    let (mut text, mut used) = (vec![BYTE; length], NUMBER);
    let answer = write_schedule(4, 3, &VOTES, &CRASHES, &REACHES, &mut text, &mut used);
    (answer, text, used)
}

#[test]
fn a_text_is_written_and_the_bytes_after_it_are_kept() {
    for length in [CASE_D.len(), CASE_D.len() + 1, LONGEST_WRITTEN, 100_000] {
        let (answer, text, used) = write_case_d(length);
        assert_eq!((answer, used), (Ok(()), CASE_D.len()), "{length}");
        assert_eq!(&text[..used], CASE_D);
        assert!(text[used..].iter().all(|&byte| byte == BYTE), "{length}");
    }
}

#[test]
fn a_buffer_that_is_too_short_is_refused_and_kept() {
    for length in 0..CASE_D.len() {
        let kept = (Err(18), vec![BYTE; length], NUMBER);
        assert_eq!(write_case_d(length), kept, "{length}");
    }
}

/// Each question is asked before those after it, and a buffer that is too short last of all.
#[test]
fn a_refused_writing_changes_nothing() {
    for length in [0, LONGEST_WRITTEN] {
        let (mut text, mut used) = (vec![BYTE; length], NUMBER);
        let mut write = |n, t, votes: &[u8], crashes: &[u8], reaches: &[Set]| {
            write_schedule(n, t, votes, crashes, reaches, &mut text, &mut used)
        };
        assert_eq!(write(usize::MAX, 0, &[], &[], &[]), Err(1));
        assert_eq!(write(3, 3, &[2; 3], &[9; 3], &[9; 3]), Err(1));
        assert_eq!(write(4, 4, &[], &[], &[]), Err(2));
        assert_eq!(write(4, 3, &[2; 3], &[9; 4], &[9; 4]), Err(3));
        assert_eq!(write(4, 3, &[2; 4], &[9; 5], &[9; 4]), Err(3));
        assert_eq!(write(4, 3, &[2; 4], &[9; 4], &[9; 3]), Err(3));
        assert_eq!(write(4, 3, &[2; 4], &[9; 4], &[9; 4]), Err(4));
        assert_eq!(write(4, 3, &[1; 4], &[5; 4], &[9; 4]), Err(5));
        assert_eq!(write(4, 3, &[1; 4], &[1; 4], &[1; 4]), Err(6));
        assert_eq!(write(4, 3, &[1; 4], &[1; 4], &[0; 4]), Err(7));
        assert_eq!((text, used), (vec![BYTE; length], NUMBER));
    }
}

/// What a reading is lent, full of a byte and of numbers of its own.
#[derive(Clone, Debug, PartialEq)]
struct Lent {
    votes: Vec<u8>,
    crashes: Vec<u8>,
    reaches: Vec<Set>,
    read: [usize; 3],
}

impl Lent {
    /// Tables of these lengths.
    fn of(votes: usize, crashes: usize, reaches: usize) -> Lent {
        Lent {
            votes: vec![BYTE; votes],
            crashes: vec![BYTE; crashes],
            reaches: vec![Set::MAX; reaches],
            read: [NUMBER, NUMBER + 1, NUMBER + 2],
        }
    }

    /// Tables as they must be.
    fn whole() -> Lent {
        Lent::of(LARGEST, LARGEST, LARGEST)
    }

    fn read(&mut self, text: &[u8]) -> Result<(), u8> {
        let (votes, crashes, reaches) = (&mut self.votes, &mut self.crashes, &mut self.reaches);
        read_schedule(text, votes, crashes, reaches, &mut self.read)
    }

    /// Reads a text that is refused with this number on this line: nothing changes but the line's number.
    fn refuses(mut self, text: &[u8], number: u8, line: usize) {
        let mut due = self.clone();
        due.read[READ_LINE] = line;
        assert_eq!(self.read(text), Err(number));
        assert_eq!(self, due);
    }
}

#[test]
fn a_text_is_read_and_the_entries_above_n_are_kept() {
    let mut lent = Lent::whole();
    let mut due = lent.clone();
    due.votes[..4].copy_from_slice(&VOTES);
    due.crashes[..4].copy_from_slice(&CRASHES);
    due.reaches[..4].copy_from_slice(&REACHES);
    (due.read[READ_N], due.read[READ_T]) = (4, 3);
    assert_eq!(lent.read(CASE_D), Ok(()));
    assert_eq!(lent, due);
}

/// Each table that is not of the largest size is refused before anything is asked of the text.
#[test]
fn tables_of_another_length_are_refused() {
    let whole = LARGEST;
    for length in [0, 4, whole - 1, whole + 1] {
        for text in [CASE_D, &[], &[0; LONGEST_TEXT + 1]] {
            Lent::of(length, whole, whole).refuses(text, 3, 0);
            Lent::of(whole, length, whole).refuses(text, 3, 0);
            Lent::of(whole, whole, length).refuses(text, 3, 0);
        }
    }
}

#[test]
fn a_refused_text_writes_its_line_and_nothing_else() {
    let case_d = String::from_utf8(CASE_D.to_vec()).unwrap();
    let refuses = |from: &str, to: &str, number, line| {
        let text = case_d.replace(from, to);
        Lent::whole().refuses(text.as_bytes(), number, line);
    };
    refuses("n t", "n  t", 9, 1);
    refuses("4 3", "04 3", 9, 2);
    refuses("4 3", "3 3", 1, 2);
    refuses("4 3", "4 4", 2, 2);
    refuses("id", "Id", 9, 3);
    refuses("1 1 1 0100", "1 1 1 1000", 6, 4);
    refuses("2 1 0", "2 2 0", 4, 5);
    refuses("3 1 0", "3 1 5", 5, 6);
    refuses("4 1 0 0000\n", "", 9, 7);
    refuses("4 1 0 0000\n", "4 1 0 0000", 9, 7);
    refuses("4 1 0 0000\n", "4 1 0 0000\n\n", 9, 8);
    refuses(" 1 0 ", " 1 1 ", 7, 7);
    Lent::whole().refuses(&[], 9, 1);
    Lent::whole().refuses(&[b'\n'; LONGEST_TEXT], 9, 1);
    Lent::whole().refuses(&[b'\n'; LONGEST_TEXT + 1], 8, 0);
}

/// A text of the largest cluster fills the tables to their ends, and is written again as it was.
#[test]
fn the_longest_text_is_read_and_written_again() {
    let n = LARGEST;
    let (mut crashes, mut reaches) = ([63; LARGEST], [0; LARGEST]);
    crashes[n - 1] = 0;
    reaches[0] = 1 << (n - 1);
    let (mut text, mut used) = ([BYTE; LONGEST_WRITTEN], NUMBER);
    let votes = [1; LARGEST];
    let answer = write_schedule(n, n - 1, &votes, &crashes, &reaches, &mut text, &mut used);
    assert_eq!((answer, used), (Ok(()), LONGEST_WRITTEN));
    let mut lent = Lent::whole();
    assert_eq!(lent.read(&text), Ok(()));
    assert_eq!(lent.read, [n, n - 1, NUMBER + 2]);
    assert_eq!(lent.votes, votes);
    assert_eq!(lent.crashes, crashes);
    assert_eq!(lent.reaches, reaches);
    let mut again = [0; LONGEST_WRITTEN];
    let (votes, crashes, reaches) = (&lent.votes, &lent.crashes, &lent.reaches);
    let answer = write_schedule(n, n - 1, votes, crashes, reaches, &mut again, &mut used);
    assert_eq!((answer, again), (Ok(()), text));
}
