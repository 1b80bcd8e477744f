//! The line rules of the schedule text, the refused line, and the text of a schedule.

use reference::report::answer;
use reference::schedule::Schedule;
use reference::text::{line, read, write, Refused};
use reference::{LARGEST, LONGEST};

const CASE_A: &str =
    "n t\n4 3\nid vote crash reach\n1 1 0 0000\n2 1 0 0000\n3 1 0 0000\n4 1 0 0000\n";

/// Refusal number and line of a text, and its line as printed.
fn refused(text: &[u8]) -> (u8, usize, Vec<u8>) {
    let Refused { refusal, line: k } = read(text).expect_err("the text is refused");
    let number = refusal.number();
    let mut printed = format!("refused line\n{number} {k}\n").into_bytes();
    printed.extend_from_slice(line(text, k));
    printed.push(b'\n');
    assert_eq!(answer(text), printed);
    (number, k, line(text, k).to_vec())
}

/// Refusal of case A with the first place of `old` changed to `new`.
fn changed(old: &str, new: &str) -> (u8, usize, String) {
    assert!(CASE_A.contains(old));
    let (number, k, line) = refused(CASE_A.replacen(old, new, 1).as_bytes());
    (number, k, String::from_utf8(line).expect("the text is"))
}

fn is(number: u8, k: usize, line: &str) -> (u8, usize, String) {
    (number, k, line.to_string())
}

#[test]
fn an_empty_text() {
    assert_eq!(answer(b""), b"refused line\n9 1\n\n");
}

#[test]
fn lines_that_are_missing_or_without_lf() {
    assert_eq!(refused(b"n t"), (9, 1, b"n t".to_vec()));
    assert_eq!(refused(b"n t\n"), (9, 2, vec![]));
    assert_eq!(refused(b"n t\n3 3"), (9, 2, b"3 3".to_vec()));
    assert_eq!(changed("4 1 0 0000\n", ""), is(9, 7, ""));
    assert_eq!(
        changed("4 1 0 0000\n", "4 1 0 0000"),
        is(9, 7, "4 1 0 0000")
    );
    assert_eq!(
        changed("0000\n2 1", "0000 2 1"),
        is(9, 4, "1 1 0 0000 2 1 0 0000")
    );
}

#[test]
fn headings_letter_for_letter() {
    assert_eq!(changed("n t", "n  t"), is(9, 1, "n  t"));
    assert_eq!(changed("n t", "N t"), is(9, 1, "N t"));
    assert_eq!(changed("n t", "n t\r"), is(9, 1, "n t\r"));
    assert_eq!(changed("reach", "reach "), is(9, 3, "id vote crash reach "));
}

#[test]
fn numbers_have_one_or_two_digits_without_a_leading_zero() {
    assert_eq!(changed("4 3", "04 3"), is(9, 2, "04 3"));
    assert_eq!(changed("4 3", "4 03"), is(9, 2, "4 03"));
    assert_eq!(changed("4 3", "4 003"), is(9, 2, "4 003"));
    assert_eq!(changed("4 3", "104 3"), is(9, 2, "104 3"));
    let n_too_large = format!("{} 103", LARGEST + 1);
    assert_eq!(changed("4 3", &n_too_large), is(9, 2, &n_too_large));
    assert_eq!(changed("4 3", "4"), is(9, 2, "4"));
    assert_eq!(changed("4 3", "4 3 3"), is(9, 2, "4 3 3"));
    assert_eq!(changed("4 3", "4 "), is(9, 2, "4 "));
    assert_eq!(changed("4 3", " 4 3"), is(9, 2, " 4 3"));
    assert_eq!(changed("1 1 0", "1 1 00"), is(9, 4, "1 1 00 0000"));
    assert_eq!(changed("1 1 0", "01 1 0"), is(9, 4, "01 1 0 0000"));
    assert_eq!(changed("1 1 0", "1 01 0"), is(9, 4, "1 01 0 0000"));
    assert_eq!(changed("1 1 0", "1 +1 0"), is(9, 4, "1 +1 0 0000"));
}

#[test]
fn line_2_after_its_form() {
    assert_eq!(changed("4 3", "3 9"), is(1, 2, "3 9"));
    let n_too_large = format!("{} 3", LARGEST + 1);
    assert_eq!(changed("4 3", &n_too_large), is(1, 2, &n_too_large));
    assert_eq!(changed("4 3", "4 2"), is(2, 2, "4 2"));
    assert_eq!(changed("4 3", "4 4"), is(2, 2, "4 4"));
}

#[test]
fn process_lines() {
    assert_eq!(changed("1 1 0", "2 1 0"), is(9, 4, "2 1 0 0000"));
    assert_eq!(changed("2 1 0 0000", "2 1 0 000"), is(9, 5, "2 1 0 000"));
    assert_eq!(
        changed("2 1 0 0000", "2 1 0 00000"),
        is(9, 5, "2 1 0 00000")
    );
    assert_eq!(changed("2 1 0 0000", "2 2 0 0020"), is(9, 5, "2 2 0 0020"));
    assert_eq!(changed("2 1 0 0000", "2 9 9 0100"), is(4, 5, "2 9 9 0100"));
    assert_eq!(changed("2 1 0 0000", "2 1 5 0100"), is(5, 5, "2 1 5 0100"));
    assert_eq!(changed("2 1 0 0000", "2 1 4 0100"), is(6, 5, "2 1 4 0100"));
    assert_eq!(changed("2 1 0 0000", "2 1 0 1000"), is(6, 5, "2 1 0 1000"));
}

#[test]
fn nothing_follows_the_last_line() {
    let with = |end: &str| [CASE_A, end].concat().into_bytes();
    assert_eq!(refused(&with("\n")), (9, 8, vec![]));
    assert_eq!(refused(&with("x")), (9, 8, b"x".to_vec()));
    assert_eq!(
        refused(&with("5 1 0 0000\n")),
        (9, 8, b"5 1 0 0000".to_vec())
    );
}

#[test]
fn too_many_crashes_are_asked_last() {
    let text = CASE_A.replace("1 0 0000", "1 4 0000");
    assert_eq!(refused(text.as_bytes()), (7, 7, b"4 1 4 0000".to_vec()));
    assert_eq!(refused((text + "\n").as_bytes()), (9, 8, vec![]));
}

#[test]
fn too_long_texts() {
    assert_eq!(refused(&[b'\n'; LONGEST]), (9, 1, vec![]));
    assert_eq!(refused(&[b'\n'; LONGEST + 1]), (8, 0, vec![]));
    let mut text = CASE_A.as_bytes().to_vec();
    text.resize(LONGEST, 0);
    assert_eq!(refused(&text).0, 9);
    text.push(0);
    assert_eq!(refused(&text), (8, 0, vec![]));
}

/// The text of 64 processes without a crash: 30 bytes in lines 1 to 3, 71 for each of processes 1 to 9, and 72 for each
/// of the other 55.
#[test]
fn a_large_text_filled_up() {
    let mut text = write(&Schedule::quiet(64, 63));
    assert_eq!(text.len(), 30 + 9 * 71 + 55 * 72);
    assert!(read(&text).is_ok());
    let filling = vec![b'x'; 8_192 - text.len()];
    text.extend_from_slice(&filling);
    assert_eq!(refused(&text), (9, 68, filling));
    text.push(b'x');
    assert_eq!(text.len(), 8_193);
    assert_eq!(refused(&text), (8, 0, vec![]));
}

#[test]
fn lines_of_a_text() {
    let text = b"one\n\nthree";
    let lines: Vec<&[u8]> = (0..6).map(|k| line(text, k)).collect();
    let expected: [&[u8]; 6] = [b"", b"one", b"", b"three", b"", b""];
    assert_eq!(lines, expected);
}

/// One process at least doesn't crash, and its crash round has a single digit; all others have two. Lines 1 to 3 have
/// 30 bytes, and those of processes 1 to 9 one less than the others: 30 + 9 * 72 + 55 * 73 - 1 = 4692.
#[test]
fn the_longest_text_is_read_back() {
    let mut schedule = Schedule::quiet(LARGEST, LARGEST - 1);
    for i in 2..=LARGEST {
        schedule.crashes[i - 1] = LARGEST as u8;
        schedule.reaches[i - 1] = 1;
    }
    let text = write(&schedule);
    assert_eq!(text.len(), 4_692);
    assert_eq!(read(&text), Ok(schedule));
}

/// The same with a crash of process 1, too: one byte more, and one crash too many.
#[test]
fn the_longest_text_of_right_form_is_refused_by_7() {
    let mut schedule = Schedule::quiet(64, 63);
    schedule.crashes.fill(64);
    let text = write(&schedule);
    assert_eq!(text.len(), 4_693);
    let last = format!("64 1 64 {}", "0".repeat(64));
    assert_eq!(refused(&text), (7, 67, last.into_bytes()));
}
