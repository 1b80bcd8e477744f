//! Sets of processes by their numbers.

use std::fmt;
use std::iter::FusedIterator;

use crate::Set;

/// A set of processes, by their numbers from 1. It prints as `{1, 4}`, and as `{}` if it is empty.
///
/// Every [`Set`] is one, and [`bits`](Processes::bits) gives it back.
#[derive(Clone, Copy, PartialEq, Eq, Hash)]
pub struct Processes {
    bits: Set,
}

impl Processes {
    /// The set as a number: bit j - 1 stands for process j.
    pub fn bits(self) -> Set {
        self.bits
    }

    /// Whether it names the process with this number. It names nobody with a number that is not from 1 to [`LARGEST`](crate::LARGEST).
    pub fn contains(self, id: usize) -> bool {
        self.iter().any(|named| named == id)
    }

    /// How many processes it names.
    pub fn len(self) -> usize {
        self.bits.count_ones() as usize
    }

    /// Whether it names nobody.
    pub fn is_empty(self) -> bool {
        self.bits == 0
    }

    /// The numbers of the processes that it names, in ascending order.
    pub fn iter(self) -> ProcessNumbers {
        ProcessNumbers { left: self }
    }
}

impl From<Set> for Processes {
    fn from(bits: Set) -> Processes {
        Processes { bits }
    }
}

impl From<Processes> for Set {
    fn from(processes: Processes) -> Set {
        processes.bits
    }
}

impl fmt::Display for Processes {
    fn fmt(&self, f: &mut fmt::Formatter<'_>) -> fmt::Result {
        f.write_str("{")?;
        for (place, id) in self.iter().enumerate() {
            let before = if place == 0 { "" } else { ", " };
            write!(f, "{before}{id}")?;
        }
        f.write_str("}")
    }
}

impl fmt::Debug for Processes {
    fn fmt(&self, f: &mut fmt::Formatter<'_>) -> fmt::Result {
        f.debug_set().entries(self).finish()
    }
}

impl IntoIterator for Processes {
    type Item = usize;
    type IntoIter = ProcessNumbers;

    fn into_iter(self) -> ProcessNumbers {
        self.iter()
    }
}

impl IntoIterator for &Processes {
    type Item = usize;
    type IntoIter = ProcessNumbers;

    fn into_iter(self) -> ProcessNumbers {
        self.iter()
    }
}

/// The numbers of the processes that a set names, from 1, in ascending order: see [`Processes::iter`].
#[derive(Clone, Debug)]
pub struct ProcessNumbers {
    /// Those that are still to come.
    left: Processes,
}

impl Iterator for ProcessNumbers {
    type Item = usize;

    fn next(&mut self) -> Option<usize> {
        if self.left.is_empty() {
            return None;
        }
        let lowest = self.left.bits.trailing_zeros();
        self.left.bits &= !(1 << lowest);
        Some(lowest as usize + 1)
    }

    fn size_hint(&self) -> (usize, Option<usize>) {
        (self.left.len(), Some(self.left.len()))
    }
}

impl ExactSizeIterator for ProcessNumbers {}

impl FusedIterator for ProcessNumbers {}
