//! The commit bench and its members, written a second time from document 01, and from document 02 as far as its
//! requests have landed: so far K1, K2, K3, K4, K6, K7, K8, K9 and K11. Where document 02 changes document 01, document
//! 02 stands.
//!
//! The modules follow document 01 in its order. Processes and rounds are numbered from 1, as there; the entry of
//! process i in a table stands at place i - 1.
//!
//! The largest cluster, the type of a set of processes and the longest text stand here and nowhere else; what follows
//! from them is written in terms of them.

pub mod crashes;
pub mod demand3;
pub mod files;
pub mod first;
pub mod member;
pub mod outcome;
pub mod questions;
pub mod report;
pub mod run;
pub mod schedule;
pub mod silent;
pub mod so_far;
pub mod text;
pub mod why;

/// The largest number of processes.
pub const LARGEST: usize = 64;

/// A set of processes, such as a reach or the silent ones of a row; bit i - 1 stands for process i.
pub type Set = u64;

/// The length of the longest text in bytes.
pub const LONGEST: usize = 8192;

// A set has a bit for each process, and two digits of a text are enough for its number.
const _: () = assert!(LARGEST <= Set::BITS as usize && LARGEST <= 99);
