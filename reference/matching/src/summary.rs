//! The sum of all parts and the exit code.

use reference::silent::Settings;
use reference::so_far::Equalities;
use reference::why::WORDS;
use reference::LONGEST;

use crate::findings::{Findings, Kind, Rules};

/// What all parts found together.
#[derive(Clone, Debug, Default)]
pub struct Summary {
    compared: u64,
    differ: u64,
    demands: u64,
    broken: u64,
    faults: Vec<String>,
}

impl Summary {
    /// Adds the findings of a part that has to meet these refusal numbers.
    pub fn add(&mut self, part: &str, findings: &Findings, numbers: &[u8]) {
        self.compared += findings.compared;
        self.differ += findings.differ;
        self.demands += findings.demands;
        self.broken += findings.broken;
        for number in findings.never_met(numbers) {
            self.fault(format!("{part}: refusal number {number} was never met"));
        }
    }

    /// Adds a reason to fail other than a difference.
    pub fn fault(&mut self, words: String) {
        self.faults.push(words);
    }

    /// The exit code: 0 only if something was done, nothing differs, no promise is broken, and there is no fault.
    pub fn exit_code(&self) -> u8 {
        let done = self.compared + self.demands != 0;
        let right = self.differ + self.broken == 0 && self.faults.is_empty();
        u8::from(!(done && right))
    }

    /// The last lines: the faults, demand 3 with the three rules, and one line over everything. A run that breaks one
    /// of the four counts as a difference there.
    pub fn print(&self) {
        for fault in &self.faults {
            println!("FAULT {fault}");
        }
        println!("{}", demand_words(self.demands, self.broken));
        let (compared, differ) = (self.compared, self.differ + self.broken);
        println!("compared {compared}, differ {differ}");
    }
}

/// Prints what a part found: its heading, its kinds with their counts, the numbers met, the first differences.
pub fn print_part(heading: &str, names: &[&str], findings: &Findings, numbers: &[u8]) {
    let total = findings
        .kinds
        .iter()
        .fold(Kind::default(), |sum, kind| Kind {
            accepted: sum.accepted + kind.accepted,
            refused: sum.refused + kind.refused,
        });
    println!("{heading}: {}", words(&total));
    for (name, kind) in names.iter().zip(&findings.kinds) {
        println!("  {}: {}", spelled(name), words(kind));
    }
    if !numbers.is_empty() {
        let met = |number: &u8| format!("{number} met {}", findings.met[usize::from(*number)]);
        let met: Vec<String> = numbers.iter().map(met).collect();
        println!("  refusal numbers: {}", met.join(", "));
    }
    if findings.demands != 0 {
        println!("  {}", demand_words(findings.demands, findings.broken));
        println!("  {}", equality_words(findings.equalities));
        println!("  {}", setting_words(findings.settings));
    }
    if findings.rules != Rules::default() {
        println!("  {}", rule_words(&findings.rules));
    }
    println!(
        "  answers: {} equal, {} different",
        findings.compared - findings.differ,
        findings.differ
    );
    for (case, difference) in &findings.differences {
        println!("DIFFERENCE in case {case}\n{difference}");
    }
}

/// A name as it is printed: LONGEST and LONGEST + 1 are numbers there.
pub fn spelled(name: &str) -> String {
    name.replace("LONGEST + 1", &with_commas(LONGEST + 1))
        .replace("LONGEST", &with_commas(LONGEST))
}

/// A number with a comma between thousands.
fn with_commas(number: usize) -> String {
    match number {
        0..=999 => number.to_string(),
        _ => format!("{},{:03}", with_commas(number / 1_000), number % 1_000),
    }
}

/// How many runs were held against demand 3 and the rules of the first decider, of the crashes so far and of the silent
/// processes, and how many break one of these.
fn demand_words(demands: u64, broken: u64) -> String {
    format!(
        "demand 3, the first decider, the crashes so far and the silent processes: held against {demands} runs, \
         broken by {broken}"
    )
}

/// How often the number of crashes so far is met with equality: by how many processes of a run in a round.
pub fn equality_words(Equalities { before_t, in_t }: Equalities) -> String {
    format!("crashes so far: met with equality by {before_t} processes before round t, by {in_t} in round t")
}

/// How many rows set the silent processes, and how many of those that crash in the round of such a row are named.
pub fn setting_words(settings: Settings) -> String {
    let (rows, named, not_named) = (settings.rows, settings.named, settings.not_named);
    format!("silent processes: set by {rows} rows; of those crashing in the round {named} named, {not_named} not")
}

/// How often each rule is named for a process.
pub fn rule_words(rules: &Rules) -> String {
    let named = WORDS.iter().zip(rules);
    let named: Vec<String> = named
        .map(|(word, count)| format!("{word} {count}"))
        .collect();
    format!("rules named: {}", named.join(", "))
}

/// The counts of a kind in words.
fn words(kind: &Kind) -> String {
    match (kind.accepted, kind.refused) {
        (accepted, 0) => format!("{accepted} accepted"),
        (0, refused) => format!("{refused} refused"),
        (accepted, refused) => format!("{refused} refused, {accepted} accepted"),
    }
}
