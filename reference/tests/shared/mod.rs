//! What several of the tests need: schedules of four in letters, a generator of numbers, all schedules of a small cluster, the
//! texts in `schedules`, and the program.

// Each test has this module to itself, and uses a part of it.
#![allow(dead_code)]

use std::fs;
use std::io::Write;
use std::path::{Path, PathBuf};
use std::process::{Command, Output, Stdio};

use reference::schedule::{bit, everyone, Schedule};
use reference::Set;

/// A crash: the process, its crash round, and its reach in letters.
pub type Crash = (usize, u8, &'static str);

/// A set in letters, place j for process j.
pub fn set(letters: &str) -> Set {
    let named = (1..)
        .zip(letters.chars())
        .filter(|(_, letter)| *letter == '1');
    named.map(|(j, _)| bit(j)).sum()
}

/// A schedule with n = 4 and t = 3, all votes 1.
pub fn schedule(crashes: &[Crash]) -> Schedule {
    let mut schedule = Schedule::quiet(4, 3);
    for (i, round, letters) in crashes {
        schedule.crashes[i - 1] = *round;
        schedule.reaches[i - 1] = set(letters);
    }
    schedule
}

/// A small fixed generator of numbers (xorshift).
pub struct Random(pub u64);

impl Random {
    pub fn next(&mut self) -> u64 {
        self.0 ^= self.0 << 13;
        self.0 ^= self.0 >> 7;
        self.0 ^= self.0 << 17;
        self.0
    }

    /// A number below the limit, which isn't 0.
    pub fn below(&mut self, limit: usize) -> usize {
        (self.next() % limit as u64) as usize
    }

    /// A reach of process i of n: anybody, nobody, one process, or everybody else.
    pub fn reach(&mut self, n: usize, i: usize) -> Set {
        let others = everyone(n) & !bit(i);
        match self.below(4) {
            0 => 0,
            1 => others,
            2 => others & bit(self.below(n) + 1),
            _ => others & self.next(),
        }
    }
}

/// All schedules with n = 4 and t = 3 in which all vote 1: each process has 33 ways to crash or not, and not all crash.
pub fn all_schedules(mut each: impl FnMut(&Schedule)) -> usize {
    let mut count = 0;
    for number in 0..33_usize.pow(4) {
        let mut schedule = Schedule::quiet(4, 3);
        for i in 1..=4 {
            let way = number / 33_usize.pow(i as u32 - 1) % 33;
            if way != 0 {
                schedule.crashes[i - 1] = (way - 1) as u8 / 8 + 1;
                schedule.reaches[i - 1] = among_others(i, (way - 1) as Set % 8);
            }
        }
        if schedule.f() <= 3 {
            count += 1;
            each(&schedule);
        }
    }
    count
}

/// A set of the three processes other than i, from three bits.
fn among_others(i: usize, bits: Set) -> Set {
    let below = bits & (bit(i) - 1);
    below | (bits ^ below) << 1
}

/// Calls the program with these arguments and a text.
pub fn called(arguments: &[&str], text: &[u8]) -> Output {
    let mut child = Command::new(env!("CARGO_BIN_EXE_reference"))
        .args(arguments)
        .stdin(Stdio::piped())
        .stdout(Stdio::piped())
        .stderr(Stdio::piped())
        .spawn()
        .expect("the program starts");
    // The program may end before it has read the text, so the writing may fail.
    let _ = child.stdin.take().expect("it is piped").write_all(text);
    child.wait_with_output().expect("the program ends")
}

/// The paths of all texts in `schedules`.
pub fn texts() -> Vec<PathBuf> {
    let directory = Path::new(env!("CARGO_MANIFEST_DIR")).join("../schedules");
    let entries = fs::read_dir(directory).expect("the directory is there");
    let paths = entries.map(|entry| entry.expect("the entry is there").path());
    let is_text = |path: &PathBuf| path.extension().map_or(false, |end| end == "text");
    let texts: Vec<PathBuf> = paths.filter(is_text).collect();
    assert!(texts.len() >= 287, "only {} texts", texts.len());
    texts
}
