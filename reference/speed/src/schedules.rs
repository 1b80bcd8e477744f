//! The schedules, rows and texts that are measured.

use matching::generate::FAMILIES;
use matching::members::State;
use matching::random::Random;
use reference::member::Member;
use reference::run::run_heard;
use reference::schedule::Schedule;
use reference::text::write;

/// How many schedules there are of each size.
pub const COUNT: usize = 4_096;

/// Accepted schedules of n processes over the full spread: the families of the matching in turn, each with any t from 3 to n - 1.
pub fn spread(n: usize) -> Vec<Schedule> {
    let of_case = |case: usize| {
        let mut random = Random::of_case(1, n as u64, case as u64);
        let t = random.within(3..=n - 1);
        let (_, make) = FAMILIES[case % FAMILIES.len()];
        make(&mut random, n, t)
    };
    (0..COUNT).map(of_case).collect()
}

/// A member that is about to hear a row, as the reference has it and as the bytes of its state, and the row.
pub struct Hearing {
    pub member: Member,
    pub state: State,
    pub row: Vec<u8>,
}

/// Every hearing in the runs of these schedules.
pub fn hearings(schedules: &[Schedule]) -> Vec<Hearing> {
    let mut hearings = Vec::new();
    for schedule in schedules {
        let (_, heard) = run_heard(schedule).expect("the schedule is accepted");
        hearings.extend(heard.into_iter().map(|hearing| Hearing {
            member: hearing.before,
            state: hearing.before.to_bytes(),
            row: hearing.row,
        }));
    }
    hearings
}

/// The texts of these schedules, in the same order.
pub fn texts(schedules: &[Schedule]) -> Vec<Vec<u8>> {
    schedules.iter().map(write).collect()
}
