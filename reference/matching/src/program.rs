//! A compiled program, `bench`, `outcome` or `why`: a process for each text.

use std::io::{ErrorKind, Write};
use std::path::Path;
use std::process::{Command, Stdio};

/// What the program at a path prints for a text on its standard input; in words, why there is no answer.
pub fn answer(path: &Path, text: &[u8]) -> Result<Vec<u8>, String> {
    let mut child = Command::new(path)
        .stdin(Stdio::piped())
        .stdout(Stdio::piped())
        .spawn()
        .map_err(|error| format!("the program doesn't start: {error}"))?;
    let mut input = child.stdin.take().ok_or("the program has no input")?;
    match input.write_all(text) {
        Err(error) if error.kind() != ErrorKind::BrokenPipe => {
            return Err(format!("the program doesn't take the text: {error}"));
        }
        // A program that stops reading a text that is too long breaks the pipe.
        _ => drop(input),
    }
    let output = child
        .wait_with_output()
        .map_err(|error| format!("the program doesn't end: {error}"))?;
    if output.status.success() {
        Ok(output.stdout)
    } else {
        Err(format!("the program ends with {}", output.status))
    }
}
