//! Times of several programs over the same work, in turns.

use std::time::Instant;

/// How often each program goes over the whole work.
const PASSES: usize = 25;

/// The nanoseconds that each program takes for one piece of the work: its fastest pass over all pieces. The programs take turns, so that
/// a disturbance of the machine meets them alike.
pub fn fastest<const N: usize>(pieces: usize, mut programs: [&mut dyn FnMut(); N]) -> [f64; N] {
    let mut best = [f64::INFINITY; N];
    for _ in 0..PASSES {
        for (program, best) in programs.iter_mut().zip(&mut best) {
            let start = Instant::now();
            program();
            *best = best.min(start.elapsed().as_nanos() as f64);
        }
    }
    best.map(|pass| pass / pieces as f64)
}
