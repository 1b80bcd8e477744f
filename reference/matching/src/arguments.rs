//! The program's arguments.

use std::path::PathBuf;

/// What the program says when its arguments are wrong.
pub const USAGE: &str = "\
matching [--bench PATH] [--outcome PATH] [--why PATH] [--seed S]... [--valid N] [--damaged N] [--tables N]
         [--outcome-calls N] [--why-calls N] [--counts N] [--writes N] [--reads N] [--trips N] [--members N] [--runs N]
         [--skip-small]
matching --self-test
matching --help";

/// The seed if none is given.
const FIRST_SEED: u64 = 1;

/// What the program says when it is asked for help.
pub fn help() -> String {
    let default = Arguments::default();
    let (valid, damaged) = (default.valid, default.damaged);
    let (tables, outcome_calls, why_calls) =
        (default.tables, default.outcome_calls, default.why_calls);
    let counts = default.counts;
    let (writes, reads, trips) = (default.writes, default.reads, default.trips);
    let (members, runs) = (default.members, default.runs);
    format!(
        "\
Puts the same input through the proved code and through the reference, and compares the answers.

{USAGE}

  --bench PATH        the compiled bench, for the texts; without it none go through it
  --outcome PATH      the compiled outcome, for the same texts; without it none go through it
  --why PATH          the compiled why, for the same texts; without it none go through it
  --seed S            fixes everything random; all of it is done for each seed that is given [{FIRST_SEED}]
  --valid N           how many texts of accepted schedules [{valid}]
  --damaged N         how many damaged texts that are refused [{damaged}]
  --tables N          how many calls on tables [{tables}]
  --outcome-calls N   how many calls for the outcome [{outcome_calls}]
  --why-calls N       how many calls for why a process decided [{why_calls}]
  --counts N          how many counts of crashes [{counts}]
  --writes N          how many schedules written into a buffer [{writes}]
  --reads N           how many texts read into tables [{reads}]
  --trips N           how many round trips each way, written and read, and read and written [{trips}]
  --members N         how many calls to a member [{members}]
  --runs N            how many runs whose members are opened and hear all their rows [{runs}]
  --skip-small        skip the schedules with n = 4 and t = 3 [all of them are compared]
  --self-test         show that differences are found, in place of the matching
  --help, -h          print this

What stands in brackets holds if the flag is not given. A count of 0 skips its part.

The last line is 'compared C, differ D'. The exit status is 0 if something was compared, D is 0 and there is no fault, such
as a refusal number that was never met; with --self-test, if every planted difference was found. It is 1 otherwise, and 2
for wrong arguments.
"
    )
}

/// The arguments with their defaults filled in.
#[derive(Clone, Debug, PartialEq, Eq)]
pub struct Arguments {
    /// Print the help, in place of everything else.
    pub help: bool,
    /// Show that differences are found, in place of the matching.
    pub self_test: bool,
    /// The compiled `bench`; without it no texts go through it.
    pub bench: Option<PathBuf>,
    /// The compiled `outcome`; without it no texts go through it.
    pub outcome: Option<PathBuf>,
    /// The compiled `why`; without it no texts go through it.
    pub why: Option<PathBuf>,
    /// Everything random is done for each seed.
    pub seeds: Vec<u64>,
    /// How many texts of accepted schedules.
    pub valid: u64,
    /// How many damaged texts that are refused.
    pub damaged: u64,
    /// How many calls on tables.
    pub tables: u64,
    /// How many calls for the outcome.
    pub outcome_calls: u64,
    /// How many calls for why a process decided.
    pub why_calls: u64,
    /// How many counts of crashes.
    pub counts: u64,
    /// How many schedules written into a buffer.
    pub writes: u64,
    /// How many texts read into tables.
    pub reads: u64,
    /// How many round trips each way.
    pub trips: u64,
    /// How many calls to a member.
    pub members: u64,
    /// How many runs whose members are opened and hear all their rows.
    pub runs: u64,
    /// Skip the schedules with n = 4 and t = 3.
    pub skip_small: bool,
}

impl Default for Arguments {
    fn default() -> Arguments {
        Arguments {
            help: false,
            self_test: false,
            bench: None,
            outcome: None,
            why: None,
            seeds: Vec::new(),
            valid: 4_000,
            damaged: 4_000,
            tables: 200_000,
            outcome_calls: 120_000,
            why_calls: 123_000,
            counts: 1_000_000,
            writes: 60_000,
            reads: 80_000,
            trips: 20_000,
            members: 1_000_000,
            runs: 20_000,
            skip_small: false,
        }
    }
}

/// Reads the arguments after the program's name. Whatever else is given, a call for help is answered.
pub fn parse(given: impl Iterator<Item = String>) -> Result<Arguments, String> {
    let mut arguments = Arguments::default();
    let given: Vec<String> = given.collect();
    if given.iter().any(|name| name == "--help" || name == "-h") {
        arguments.help = true;
        return Ok(arguments);
    }
    let mut given = given.into_iter().peekable();
    if given.next_if(|name| name == "--self-test").is_some() {
        arguments.self_test = true;
        return match given.next() {
            None => Ok(arguments),
            Some(more) => Err(format!("--self-test stands alone, without {more}")),
        };
    }
    while let Some(name) = given.next() {
        if name == "--skip-small" {
            arguments.skip_small = true;
            continue;
        }
        let value = given.next().ok_or(format!("{name} needs a value"))?;
        set(&mut arguments, &name, &value)?;
    }
    if arguments.seeds.is_empty() {
        arguments.seeds.push(FIRST_SEED);
    }
    Ok(arguments)
}

/// Sets the value of an argument.
fn set(arguments: &mut Arguments, name: &str, value: &str) -> Result<(), String> {
    let number = || {
        let number = value.parse::<u64>();
        number.map_err(|_| format!("{name} needs a number, not {value}"))
    };
    match name {
        "--bench" => arguments.bench = Some(PathBuf::from(value)),
        "--outcome" => arguments.outcome = Some(PathBuf::from(value)),
        "--why" => arguments.why = Some(PathBuf::from(value)),
        "--seed" => arguments.seeds.push(number()?),
        "--valid" => arguments.valid = number()?,
        "--damaged" => arguments.damaged = number()?,
        "--tables" => arguments.tables = number()?,
        "--outcome-calls" => arguments.outcome_calls = number()?,
        "--why-calls" => arguments.why_calls = number()?,
        "--counts" => arguments.counts = number()?,
        "--writes" => arguments.writes = number()?,
        "--reads" => arguments.reads = number()?,
        "--trips" => arguments.trips = number()?,
        "--members" => arguments.members = number()?,
        "--runs" => arguments.runs = number()?,
        _ => return Err(format!("{name} is unknown")),
    }
    Ok(())
}

#[cfg(test)]
mod tests {
    use super::*;

    fn parsed(line: &str) -> Result<Arguments, String> {
        parse(line.split_whitespace().map(str::to_string))
    }

    #[test]
    fn the_default_is_seed_1() {
        let expected = Arguments {
            seeds: vec![1],
            ..Arguments::default()
        };
        assert_eq!(parsed(""), Ok(expected));
    }

    #[test]
    fn values_are_taken() {
        let line = "--bench x --seed 5 --valid 1 --seed 6 --damaged 2 --tables 3 --counts 4 \
                    --members 5 --runs 6 --writes 7 --reads 8 --trips 9 --outcome y \
                    --outcome-calls 10 --why z --why-calls 11 --skip-small";
        let expected = Arguments {
            help: false,
            self_test: false,
            bench: Some(PathBuf::from("x")),
            outcome: Some(PathBuf::from("y")),
            why: Some(PathBuf::from("z")),
            seeds: vec![5, 6],
            valid: 1,
            damaged: 2,
            tables: 3,
            outcome_calls: 10,
            why_calls: 11,
            counts: 4,
            writes: 7,
            reads: 8,
            trips: 9,
            members: 5,
            runs: 6,
            skip_small: true,
        };
        assert_eq!(parsed(line), Ok(expected));
    }

    #[test]
    fn wrong_arguments_are_named() {
        for line in ["--seed", "--seed x", "--more 1", "--self-test --seed 1"] {
            assert!(parsed(line).is_err(), "{line}");
        }
        assert!(parsed("--self-test").unwrap().self_test);
    }

    #[test]
    fn help_is_given_whatever_else_is_asked() {
        for line in ["--help", "-h", "--self-test -h", "--seed 1 --help --more"] {
            assert!(parsed(line).unwrap().help, "{line}");
        }
        assert!(!parsed("--self-test").unwrap().help);
    }

    #[test]
    fn the_help_has_every_flag_and_its_default() {
        let help = help();
        for line in USAGE.lines() {
            for flag in line.split(' ').filter(|word| word.contains("--")) {
                let flag = flag.trim_matches(&['[', ']'][..]);
                assert!(help.contains(&format!("\n  {flag}")), "{flag}");
            }
        }
        for default in [
            "[1]",
            "[4000]",
            "[200000]",
            "[120000]",
            "[123000]",
            "[1000000]",
            "[60000]",
            "[80000]",
            "[20000]",
        ] {
            assert!(help.contains(default), "{default}");
        }
    }
}
