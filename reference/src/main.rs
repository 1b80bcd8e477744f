//! Reads one schedule text from standard input and prints its report or its refusal, as `bench` does (document 01,
//! "Schedule text and report"); with `--outcome` its outcome or its refusal, as `outcome` does (document 02, K6); with
//! `--why` why each process decided, or its refusal, as `why` does (K9).

use std::env::args;
use std::io::{stdin, stdout, Read, Result, Write};
use std::process::ExitCode;

use reference::{outcome, report, why, LONGEST};

/// What the program says when its arguments are wrong.
const USAGE: &str = "reference [--outcome | --why]";

fn main() -> Result<ExitCode> {
    let given: Vec<String> = args().skip(1).collect();
    let answer = match given.as_slice() {
        [] => report::answer,
        [name] if name == "--outcome" => outcome::answer,
        [name] if name == "--why" => why::answer,
        _ => {
            eprintln!("{USAGE}");
            return Ok(ExitCode::from(2));
        }
    };
    // One byte more than the limit is enough to notice a text that is too long.
    let mut text = Vec::with_capacity(LONGEST + 1);
    stdin().take(LONGEST as u64 + 1).read_to_end(&mut text)?;
    stdout().write_all(&answer(&text))?;
    Ok(ExitCode::SUCCESS)
}
