//! A small fixed generator of numbers (splitmix64): the same seed gives the same numbers everywhere.

use std::ops::RangeInclusive;

use reference::{Set, LARGEST};

/// The generator.
#[derive(Clone, Debug)]
pub struct Random {
    state: u64,
}

impl Random {
    /// The generator of one case: seed, part of the matching and number of the case fix it, so that the cases can be
    /// shared among threads in any way.
    pub fn of_case(seed: u64, part: u64, case: u64) -> Random {
        let mut random = Random { state: seed };
        for key in [part, case] {
            random.state = random.next() ^ key;
        }
        random
    }

    /// The next 64 bits.
    fn next(&mut self) -> u64 {
        self.state = self.state.wrapping_add(0x9e37_79b9_7f4a_7c15);
        let mut bits = self.state;
        bits = (bits ^ (bits >> 30)).wrapping_mul(0xbf58_476d_1ce4_e5b9);
        bits = (bits ^ (bits >> 27)).wrapping_mul(0x94d0_49bb_1331_11eb);
        bits ^ (bits >> 31)
    }

    /// Any set.
    pub fn bits(&mut self) -> Set {
        self.next()
    }

    /// Any byte.
    pub fn byte(&mut self) -> u8 {
        (self.next() >> 56) as u8
    }

    /// So many bytes, each of which may be any.
    pub fn bytes(&mut self, length: usize) -> Vec<u8> {
        let eight = (0..length)
            .step_by(8)
            .flat_map(|_| self.next().to_le_bytes());
        eight.take(length).collect()
    }

    /// Any number at all; small ones, sizes of a cluster with a higher bit, and the largest ones often.
    pub fn any_size(&mut self) -> usize {
        match self.below(4) {
            0 => usize::MAX - self.below(3),
            1 => self.next() as usize,
            2 => (1 << self.below(usize::BITS as usize)) + self.below(2 * LARGEST),
            _ => self.below(300),
        }
    }

    /// A number below the limit, which isn't 0.
    pub fn below(&mut self, limit: usize) -> usize {
        (self.next() % limit as u64) as usize
    }

    /// A number of a range that isn't empty.
    pub fn within(&mut self, range: RangeInclusive<usize>) -> usize {
        range.start() + self.below(range.end() - range.start() + 1)
    }

    /// True once in so many times.
    pub fn one_in(&mut self, times: usize) -> bool {
        self.below(times) == 0
    }

    /// One of the choices, of which there is at least one.
    pub fn pick<T: Copy>(&mut self, choices: &[T]) -> T {
        choices[self.below(choices.len())]
    }

    /// A place of a table of this length, counted from 0; none if the table is empty.
    pub fn place(&mut self, length: usize) -> Option<usize> {
        match length {
            0 => None,
            _ => Some(self.below(length)),
        }
    }

    /// The numbers 1 to n in any order.
    pub fn order(&mut self, n: usize) -> Vec<usize> {
        let mut order: Vec<usize> = (1..=n).collect();
        for place in (1..n).rev() {
            order.swap(place, self.below(place + 1));
        }
        order
    }
}

#[cfg(test)]
mod tests {
    use super::*;

    #[test]
    fn a_case_always_has_the_same_numbers() {
        let numbers = |seed, part, case| {
            let mut random = Random::of_case(seed, part, case);
            [random.next(), random.next()]
        };
        assert_eq!(numbers(1, 2, 3), numbers(1, 2, 3));
        for other in [numbers(2, 2, 3), numbers(1, 1, 3), numbers(1, 2, 4)] {
            assert_ne!(numbers(1, 2, 3), other);
        }
    }

    #[test]
    fn numbers_stay_in_their_limits_and_meet_them() {
        let mut random = Random::of_case(1, 0, 0);
        let mut met: Vec<usize> = (0..200).map(|_| random.within(3..=7)).collect();
        met.sort_unstable();
        met.dedup();
        assert_eq!(met, [3, 4, 5, 6, 7]);
        assert_eq!(random.place(0), None);
        assert_eq!(random.place(1), Some(0));
    }

    #[test]
    fn an_order_has_each_number_once() {
        let mut order = Random::of_case(1, 0, 0).order(LARGEST);
        assert_ne!(order, (1..=LARGEST).collect::<Vec<usize>>());
        order.sort_unstable();
        assert_eq!(order, (1..=LARGEST).collect::<Vec<usize>>());
    }
}
