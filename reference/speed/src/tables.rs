//! What is measured, a table each.

use std::hint::black_box;
use std::iter::successors;

use fcwfa::{bytes, LONGEST_WRITTEN};
use matching::members::State;
use matching::outcomes::{self, Tell};
use matching::proved;
use matching::reads::{self, Read, Tables};
use matching::tables::{by_reference, Simulate};
use matching::whys::{self, Explain};
use matching::writes::{self, Write};
use reference::questions::SIZES;
use reference::schedule::Schedule;
use reference::LARGEST;

use crate::limit;
use crate::measure::fastest;
use crate::schedules::{hearings, spread, texts, COUNT};

/// The sizes that are measured: the smallest, and each twice the one before, as far as they are possible.
fn sizes() -> impl Iterator<Item = usize> {
    successors(Some(*SIZES.start()), |n| Some(2 * n)).take_while(|n| SIZES.contains(n))
}

/// Runs every schedule once.
fn run_all(schedules: &[Schedule], simulate: Simulate) {
    let (mut decisions, mut rounds) = ([0; LARGEST], [0; LARGEST]);
    for schedule in schedules {
        let n = schedule.n;
        let answer = simulate(black_box(schedule), &mut decisions[..n], &mut rounds[..n]);
        black_box(answer).expect("the schedule is accepted");
    }
}

/// The nanoseconds for a run: proved, reference, limit.
fn times(schedules: &[Schedule]) -> [f64; 3] {
    fastest(
        schedules.len(),
        [
            &mut || run_all(schedules, &proved::simulate),
            &mut || run_all(schedules, &by_reference),
            &mut || run_all(schedules, &limit::simulate),
        ],
    )
}

/// The three programs over the full spread of schedules of each size.
pub fn by_size() {
    println!();
    println!("a run, over the full spread of schedules (ns)");
    println!("   n   proved  reference    limit  reference/proved  proved/limit  proved runs/s  proved, from n/2");
    let mut before = None;
    for n in sizes() {
        let [proved, reference, limit] = times(&spread(n));
        let growth = before.map_or(String::new(), |half: f64| format!("{:.2}", proved / half));
        println!(
            "{n:4} {proved:8.0} {reference:10.0} {limit:8.0} {:17.2} {:13.2} {:14.0} {growth:>17}",
            reference / proved,
            proved / limit,
            1e9 / proved,
        );
        before = Some(proved);
    }
}

/// Takes the outcome of every schedule once.
fn tell_all(schedules: &[Schedule], tell: Tell) {
    let mut lent = [0; 2];
    for schedule in schedules {
        let answer = tell(black_box(schedule), &mut lent);
        black_box(answer).expect("the schedule is accepted");
        black_box(&lent);
    }
}

/// The outcome beside the whole run, over the same schedules of each size; gives the sizes at which it is not faster.
pub fn by_outcome() -> Vec<usize> {
    println!();
    println!(
        "the outcome, over the full spread of schedules, and the proved whole run beside it (ns)"
    );
    println!("   n   proved  whole run  reference    limit  whole run/proved  reference/proved  proved/limit");
    let mut slower = Vec::new();
    for n in sizes() {
        let schedules = spread(n);
        let [proved, whole, reference, limit] = fastest(
            schedules.len(),
            [
                &mut || tell_all(&schedules, &proved::outcome),
                &mut || run_all(&schedules, &proved::simulate),
                &mut || tell_all(&schedules, &outcomes::by_reference),
                &mut || tell_all(&schedules, &limit::outcome),
            ],
        );
        println!(
            "{n:4} {proved:8.0} {whole:10.0} {reference:10.0} {limit:8.0} {:17.2} {:17.2} {:13.2}",
            whole / proved,
            reference / proved,
            proved / limit,
        );
        if proved >= whole {
            slower.push(n);
        }
    }
    slower
}

/// Asks of every schedule once why one of its processes decided, each process in turn.
fn explain_all(schedules: &[Schedule], explain: Explain) {
    let mut lent = [0; 2];
    for (case, schedule) in schedules.iter().enumerate() {
        let id = case % schedule.n + 1;
        let answer = explain(black_box(schedule), id, &mut lent);
        black_box(answer).expect("the schedule and the process are accepted");
        black_box(&lent);
    }
}

/// Why one process decided, beside the whole run, over a part of those schedules of each size.
pub fn by_why() {
    println!();
    println!("why a process decided, over a quarter of the spread, and the proved whole run beside it (ns)");
    println!("   n   proved  whole run  reference  whole run/proved  reference/proved");
    for n in sizes() {
        let schedules = &spread(n)[..COUNT / 4];
        let [proved, whole, reference] = fastest(
            schedules.len(),
            [
                &mut || explain_all(schedules, &proved::why),
                &mut || run_all(schedules, &proved::simulate),
                &mut || explain_all(schedules, &whys::by_reference),
            ],
        );
        println!(
            "{n:4} {proved:8.0} {whole:10.0} {reference:10.0} {:17.2} {:17.2}",
            whole / proved,
            reference / proved,
        );
    }
}

/// The largest cluster, which stops after round 3, set up to bear more and more crashes: more rounds are allowed, and none is played.
pub fn by_crashes_borne() {
    println!();
    println!("a run of n = {LARGEST}, no crash: every process has stopped after round 3 (ns)");
    println!("   t   proved  reference    limit  proved, to t = 3");
    let mut first = None;
    for t in sizes().map(|n| n - 1) {
        let [proved, reference, limit] = times(&vec![Schedule::quiet(LARGEST, t); 1_024]);
        let growth = proved / *first.get_or_insert(proved);
        println!("{t:4} {proved:8.0} {reference:10.0} {limit:8.0} {growth:17.2}");
    }
}

/// The member's `hear`, on every row that is heard in the runs of a part of those schedules. The states stand in a table of their own, which
/// is copied whole before each pass: a state copied just before its call, or looked at just after it, would make the call wait for the copy.
/// The rows stand one after the other.
pub fn by_row() {
    println!();
    println!("a row heard by a member (ns)");
    println!("   n   proved  reference  reference/proved     rows");
    for n in sizes() {
        let hearings = hearings(&spread(n)[..256]);
        let rows: Vec<u8> = hearings
            .iter()
            .flat_map(|hearing| hearing.row.clone())
            .collect();
        let states: Vec<State> = hearings.iter().map(|hearing| hearing.state).collect();
        let mut lent = states.clone();
        let [proved, reference] = fastest(
            hearings.len(),
            [
                &mut || {
                    lent.copy_from_slice(&states);
                    for (row, state) in rows.chunks(n).zip(&mut lent) {
                        let heard = bytes::hear(state, black_box(row));
                        black_box(heard).expect("a row that is heard");
                    }
                    black_box(&lent);
                },
                &mut || {
                    for (row, hearing) in rows.chunks(n).zip(&hearings) {
                        let heard = hearing.member.hear(black_box(row));
                        black_box(heard).expect("a row that is heard");
                    }
                },
            ],
        );
        println!(
            "{n:4} {proved:8.1} {reference:10.1} {:17.2} {:8}",
            reference / proved,
            hearings.len()
        );
    }
}

/// Writes the text of every schedule once, all into the same buffer.
fn write_all(schedules: &[Schedule], write: Write) {
    let (mut buffer, mut used) = ([0; LONGEST_WRITTEN], 0);
    for schedule in schedules {
        let answer = write(black_box(schedule), &mut buffer, &mut used);
        black_box(answer).expect("the schedule is accepted");
        black_box((&buffer, &used));
    }
}

/// Reads every text once, all into the same tables.
fn read_all(texts: &[Vec<u8>], read: Read) {
    let mut tables = Tables {
        votes: vec![0; LARGEST],
        crashes: vec![0; LARGEST],
        reaches: vec![0; LARGEST],
    };
    let mut numbers = [0; 3];
    for text in texts {
        let answer = read(black_box(text), &mut tables, &mut numbers);
        black_box(answer).expect("the text is accepted");
        black_box((&tables, &numbers));
    }
}

/// The writer or the reader, proved and reference, over the texts of the full spread of schedules of each size; `times` gives the
/// nanoseconds for a text. The last two columns are the mean number of bytes of a text, and the nanoseconds of the proved one for a byte.
fn by_text(done: &str, times: fn(&[Schedule], &[Vec<u8>]) -> [f64; 2]) {
    println!();
    println!("the text of a schedule {done}, over the full spread of schedules (ns)");
    println!("   n   proved  reference  reference/proved  bytes, mean  proved, a byte");
    for n in sizes() {
        let schedules = spread(n);
        let texts = texts(&schedules);
        let bytes: usize = texts.iter().map(Vec::len).sum();
        let length = bytes as f64 / texts.len() as f64;
        let [proved, reference] = times(&schedules, &texts);
        println!(
            "{n:4} {proved:8.0} {reference:10.0} {:17.2} {length:12.1} {:15.3}",
            reference / proved,
            proved / length,
        );
    }
}

/// The writer of texts. The buffer is long enough for every text, and is lent again and again.
pub fn by_text_written() {
    by_text("written", |schedules, _| {
        let proved = &mut || write_all(schedules, &proved::write_schedule);
        let reference = &mut || write_all(schedules, &writes::by_reference);
        fastest(schedules.len(), [proved, reference])
    });
}

/// The reader of texts. The tables are lent again and again.
pub fn by_text_read() {
    by_text("read", |_, texts| {
        let proved = &mut || read_all(texts, &proved::read_schedule);
        let reference = &mut || read_all(texts, &reads::by_reference);
        fastest(texts.len(), [proved, reference])
    });
}
