//! A limit to measure against: the run of a schedule with sets of processes held as words.
//!
//! It keeps no member and forms no row. Who is alive, who has estimate 0 and who decided are words; what a process hears is a word, and its
//! rules are masks and counts of ones. Bit i of a word stands for the process at place i. It stops as soon as nobody speaks, or, where only
//! the outcome is asked for, as soon as somebody has decided. It asks the same questions and answers the same as the call on tables and the
//! call for the outcome; `speed` compares all answers with the reference's before it measures anything.

use matching::outcomes::Lent;
use reference::questions::SIZES;
use reference::run::{Counts, NONE};
use reference::schedule::Schedule;
use reference::{Set, LARGEST};

/// The set of the first n processes, n at least 1.
fn first(n: usize) -> Set {
    Set::MAX >> (Set::BITS as usize - n)
}

/// The set without its lowest process, and the place of that one.
fn take_lowest(set: &mut Set) -> Option<usize> {
    if *set == 0 {
        return None;
    }
    let place = set.trailing_zeros() as usize;
    *set &= *set - 1;
    Some(place)
}

/// The number of the first question whose answer is no, or 0, for a call that takes two answer tables of these lengths.
#[inline(always)]
fn question(s: &Schedule, decisions: usize, rounds: usize) -> u8 {
    if !SIZES.contains(&s.n) {
        return 1;
    }
    if !(3..s.n).contains(&s.t) {
        return 2;
    }
    let lengths = [
        s.votes.len(),
        s.crashes.len(),
        s.reaches.len(),
        decisions,
        rounds,
    ];
    if lengths != [s.n; 5] {
        return 3;
    }
    let mut f = 0;
    for place in 0..s.n {
        let (crash, reach) = (s.crashes[place], s.reaches[place]);
        if s.votes[place] > 1 {
            return 4;
        }
        if usize::from(crash) > s.t + 1 {
            return 5;
        }
        let allowed = if crash == 0 {
            0
        } else {
            first(s.n) & !(1 << place)
        };
        if reach & !allowed != 0 {
            return 6;
        }
        f += usize::from(crash != 0);
    }
    if f > s.t {
        return 7;
    }
    0
}

/// What has come of a run so far.
struct Run {
    /// Processes that have not crashed.
    alive: Set,
    /// Processes with estimate 0.
    zero: Set,
    /// Processes that decided.
    decided: Set,
    /// Those of them that decided in the smallest decided round.
    earliest: Set,
    /// Processes that decided in the round before: they say so now, and stop.
    told: Set,
    messages: usize,
}

/// Whether a process decides in round r that hears these estimates and no decided message.
fn decides(s: &Schedule, r: usize, estimates: Set, zeros: Set) -> bool {
    let count = estimates.count_ones() as usize;
    (r == 2 && zeros == estimates)
        || (r < s.t && s.n - count <= r - 2)
        || (r == s.t && count > s.n - s.t)
        || r == s.t + 1
}

impl Run {
    #[inline(always)]
    fn opened(s: &Schedule) -> Run {
        let votes = s.votes.iter().enumerate();
        Run {
            alive: first(s.n),
            zero: votes.fold(0, |set, (place, &vote)| set | Set::from(1 - vote) << place),
            decided: 0,
            earliest: 0,
            told: 0,
            messages: 0,
        }
    }

    /// Processes that say something.
    fn speakers(&self) -> Set {
        self.alive & (!self.decided | self.told)
    }

    /// One round, in which these processes crash. It is compiled into each of the two calls, as if there were only one.
    #[inline(always)]
    fn play(&mut self, s: &Schedule, r: usize, crashing: Set, rounds: &mut [u8]) {
        let speakers = self.speakers();
        let completing = self.alive & !crashing;
        // Document 02, K1: a completing sender adds n - 1, for its copy to itself is not on the wire.
        self.messages += (s.n - 1) * (speakers & completing).count_ones() as usize;
        let mut senders = speakers & crashing;
        while let Some(place) = take_lowest(&mut senders) {
            self.messages += s.reaches[place].count_ones() as usize;
        }
        let (mut zero, mut decided) = (self.zero, 0);
        let mut hearers = completing & !self.decided;
        while let Some(place) = take_lowest(&mut hearers) {
            let mut heard = speakers & completing;
            let mut senders = speakers & crashing;
            while let Some(sender) = take_lowest(&mut senders) {
                heard |= (s.reaches[sender] >> place & 1) << sender;
            }
            let (estimates, told) = (heard & !self.told, heard & self.told);
            let zeros = if told == 0 { estimates } else { told } & self.zero;
            let missing = r == 1 && estimates != first(s.n);
            if told != 0 && zeros == 0 {
                zero &= !(1 << place);
            } else if zeros != 0 || missing {
                zero |= 1 << place;
            }
            if told != 0 || (r >= 2 && decides(s, r, estimates, zeros)) {
                decided |= 1 << place;
                rounds[place] = r as u8;
            }
        }
        self.zero = zero;
        self.told = decided;
        if self.decided == 0 {
            self.earliest = decided;
        }
        self.decided |= decided;
        self.alive = completing;
    }

    /// The number of the first decider, when these processes survive. Document 02, K3: of those that decided in the smallest round a
    /// survivor goes before one that crashes, and only then the lower number.
    fn first_decider(&self, survivors: Set) -> usize {
        let ahead = match self.earliest & survivors {
            0 => self.earliest,
            surviving => surviving,
        };
        ahead.trailing_zeros() as usize + 1
    }

    /// The decisions and the counts of the ended run, which these processes survive.
    fn answer(&self, s: &Schedule, survivors: Set, decisions: &mut [u8], rounds: &[u8]) -> Counts {
        let mut last = 0;
        for (place, decision) in decisions.iter_mut().enumerate() {
            let round = rounds[place];
            *decision = match round {
                0 => NONE,
                _ => 1 - (self.zero >> place & 1) as u8,
            };
            last = last.max(round);
        }
        Counts {
            f: s.crashes.iter().filter(|&&crash| crash != 0).count(),
            first: self.first_decider(survivors),
            last: usize::from(last),
            messages: self.messages,
        }
    }
}

/// Who crashes in each round, with 0 for never; t + 1 is at most the largest n.
#[inline(always)]
fn crashing(s: &Schedule) -> [Set; LARGEST + 1] {
    let mut crashing = [0; LARGEST + 1];
    for (place, &crash) in s.crashes.iter().enumerate() {
        crashing[usize::from(crash)] |= 1 << place;
    }
    crashing
}

/// The call on tables.
pub fn simulate(s: &Schedule, decisions: &mut [u8], rounds: &mut [u8]) -> Result<Counts, u8> {
    let number = question(s, decisions.len(), rounds.len());
    if number != 0 {
        return Err(number);
    }
    let crashing = crashing(s);
    let mut run = Run::opened(s);
    rounds.fill(0);
    for (r, &crashing) in crashing.iter().enumerate().take(s.t + 2).skip(1) {
        if run.speakers() == 0 {
            break;
        }
        run.play(s, r, crashing, rounds);
    }
    Ok(run.answer(s, crashing[0], decisions, rounds))
}

/// The call for the outcome.
pub fn outcome(s: &Schedule, lent: &mut Lent) -> Result<(), u8> {
    // It takes no answer tables, and so they have the right length.
    let number = question(s, s.n, s.n);
    if number != 0 {
        return Err(number);
    }
    let mut run = Run::opened(s);
    let mut rounds = [0; LARGEST];
    for (r, &crashing) in crashing(s).iter().enumerate().take(s.t + 2).skip(1) {
        run.play(s, r, crashing, &mut rounds);
        if run.decided != 0 {
            let lowest = run.decided.trailing_zeros();
            *lent = [1 - (run.zero >> lowest & 1) as u8, r as u8];
            break;
        }
    }
    Ok(())
}
