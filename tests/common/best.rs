//! Times of pieces of work beside each other.
use std::time::Instant;

/// Nanoseconds for each of n steps: the best of the rounds for each of the two, taken in turn.
pub fn best(rounds: usize, n: usize, ours: &mut dyn FnMut(), peer: &mut dyn FnMut()) -> (f64, f64) {
    let [a, b] = best_of(rounds, n, [ours, peer]);
    (a, b)
}

/// The same for any number of them.
pub fn best_of<const N: usize>(rounds: usize, n: usize, mut work: [&mut dyn FnMut(); N]) -> [f64; N] {
    let mut least = [f64::MAX; N];
    for _ in 0..rounds {
        for (f, least) in work.iter_mut().zip(&mut least) {
            let start = Instant::now();
            f();
            *least = least.min(start.elapsed().as_nanos() as f64 / n as f64);
        }
    }
    least
}
