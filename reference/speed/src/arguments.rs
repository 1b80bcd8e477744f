//! The program's arguments.

/// What the program says when its arguments are wrong.
pub const USAGE: &str = "\
speed [--check]
speed --help";

/// What the program says when it is asked for help.
pub fn help() -> String {
    format!(
        "\
Compares the answers of the limit with those of the reference, then measures the proved simulator and the proved call
for the outcome against both and against each other, the proved call for why a process decided against the simulator and
the reference, and the member's hear and the writer and the reader of a schedule's text against the reference, all in one
run on the same schedules, and prints tables of each. It takes about 45 seconds; docs/PERFORMANCE.md says how to read the
tables.

{USAGE}

  --check      only compare [measure too]
  --help, -h   print this

What stands in brackets holds if the flag is not given.

The exit status is 0 if the limit and the reference never differ and, where it is measured, the outcome is faster than
the whole run at every n; 1 otherwise, and 2 for wrong arguments.
"
    )
}

/// What the program is asked to do.
#[derive(Clone, Copy, Debug, PartialEq, Eq)]
pub enum Task {
    /// Compare and measure.
    Measure,
    /// Compare the limit with the reference only.
    Check,
    /// Print the help.
    Help,
}

/// Reads the arguments after the program's name. Whatever else is given, a call for help is answered.
pub fn parse(given: &[String]) -> Result<Task, String> {
    if given.iter().any(|name| name == "--help" || name == "-h") {
        return Ok(Task::Help);
    }
    match given {
        [] => Ok(Task::Measure),
        [name] if name == "--check" => Ok(Task::Check),
        [name] => Err(format!("{name} is unknown")),
        _ => Err("more than one argument".to_string()),
    }
}

#[cfg(test)]
mod tests {
    use super::*;

    fn parsed(line: &str) -> Result<Task, String> {
        let given: Vec<String> = line.split_whitespace().map(str::to_string).collect();
        parse(&given)
    }

    #[test]
    fn each_task_is_asked_for() {
        assert_eq!(parsed(""), Ok(Task::Measure));
        assert_eq!(parsed("--check"), Ok(Task::Check));
        for line in ["--help", "-h", "--check --help"] {
            assert_eq!(parsed(line), Ok(Task::Help), "{line}");
        }
    }

    #[test]
    fn wrong_arguments_are_named() {
        for line in ["--more", "check", "--check --check"] {
            assert!(parsed(line).is_err(), "{line}");
        }
    }
}
