//! The texts in `schedules` and their expected reports, through the library and through the program.

use std::fs;
use std::io::Write;
use std::path::{Path, PathBuf};
use std::process::{Command, Stdio};

use reference::report::answer;
use reference::LONGEST;

/// The paths of all texts; there are at least as many as when this was written.
fn texts() -> Vec<PathBuf> {
    let directory = Path::new(env!("CARGO_MANIFEST_DIR")).join("../schedules");
    let entries = fs::read_dir(directory).expect("the directory is there");
    let paths = entries.map(|entry| entry.expect("the entry is there").path());
    let texts: Vec<PathBuf> = paths
        .filter(|path| path.extension().map_or(false, |end| end == "text"))
        .collect();
    assert!(texts.len() >= 287, "only {} texts", texts.len());
    texts
}

/// The text at a path and its expected report.
fn vector(path: &Path) -> (Vec<u8>, Vec<u8>) {
    let read = |path: &Path| fs::read(path).expect("the file is there");
    (read(path), read(&path.with_extension("report")))
}

/// What the program prints for a text.
fn program(text: &[u8]) -> Vec<u8> {
    let mut child = Command::new(env!("CARGO_BIN_EXE_reference"))
        .stdin(Stdio::piped())
        .stdout(Stdio::piped())
        .spawn()
        .expect("the program starts");
    // The program stops reading a text that is too long, so the writing may fail.
    let _ = child.stdin.take().expect("it is piped").write_all(text);
    let output = child.wait_with_output().expect("the program ends");
    assert!(output.status.success());
    output.stdout
}

#[test]
fn all_texts_through_the_library() {
    for path in texts() {
        let (text, report) = vector(&path);
        assert_eq!(answer(&text), report, "{}", path.display());
    }
}

#[test]
fn all_texts_through_the_program() {
    for path in texts() {
        let (text, report) = vector(&path);
        assert_eq!(program(&text), report, "{}", path.display());
    }
}

#[test]
fn a_text_of_any_length_through_the_program() {
    for length in [LONGEST + 1, 3 * LONGEST, 1_000_000] {
        assert_eq!(program(&vec![b'n'; length]), b"refused line\n8 0\n\n");
    }
}
