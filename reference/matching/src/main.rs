//! Matches the proved bench with the reference; see the README of the reference.

use std::env;
use std::process::ExitCode;

use matching::arguments::{help, parse, USAGE};
use matching::{plants, whole};

fn main() -> ExitCode {
    let arguments = match parse(env::args().skip(1)) {
        Ok(arguments) => arguments,
        Err(words) => {
            eprintln!("{words}\n{USAGE}");
            return ExitCode::from(2);
        }
    };
    if arguments.help {
        print!("{}", help());
        return ExitCode::SUCCESS;
    }
    if arguments.self_test {
        return ExitCode::from(plants::self_test());
    }
    let summary = whole::run(&arguments);
    summary.print();
    ExitCode::from(summary.exit_code())
}
