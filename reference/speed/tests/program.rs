//! The program's answers to a call for help and to wrong arguments: where they are printed, and the exit status.
use std::process::{Command, Output};

fn called(arguments: &[&str]) -> Output {
    let program = env!("CARGO_BIN_EXE_speed");
    let output = Command::new(program).args(arguments).output();
    output.expect("the program starts")
}

#[test]
fn help_is_printed_to_standard_output() {
    for flag in ["--help", "-h"] {
        let output = called(&[flag]);
        assert!(output.status.success(), "{flag}");
        assert!(String::from_utf8_lossy(&output.stdout).contains("exit status"));
        assert!(output.stderr.is_empty(), "{flag}");
    }
}

#[test]
fn wrong_arguments_end_with_status_2_and_the_usage() {
    let output = called(&["--more"]);
    assert_eq!(output.status.code(), Some(2));
    assert!(output.stdout.is_empty());
    assert!(String::from_utf8_lossy(&output.stderr).contains("speed --help"));
}
