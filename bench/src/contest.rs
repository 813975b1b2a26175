//! Contenders timed in turn, each at its best of several rounds.

use std::time::Duration;

/// Does the same work at each call and gives the time that it took.
pub type Work<'a> = Box<dyn FnMut() -> Duration + 'a>;

/// The shortest time of each contender. In a round each has one turn, so that
/// other work on the machine meets all of them alike.
pub fn contest(rounds: u32, contenders: &mut [Work<'_>]) -> Vec<Duration> {
    let mut best = vec![Duration::MAX; contenders.len()];
    for _ in 0..rounds {
        for (best, work) in best.iter_mut().zip(contenders.iter_mut()) {
            *best = work().min(*best);
        }
    }
    best
}
