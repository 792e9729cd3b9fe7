//! Times of several contestants on the same work: in rounds, each of them once in a round, and the
//! middle of their times.

use std::sync::atomic::{AtomicU64, Ordering};
use std::time::{Duration, Instant};

/// The shortest time that is taken for a measurement: a shorter piece of work is repeated.
const SHORTEST: Duration = Duration::from_millis(30);

/// A piece of work that was prepared (buffers cleared) and is then timed.
pub trait Contestant {
    /// What goes before and is not timed.
    fn prepare(&mut self);
    /// A number that depends on what was done.
    fn work(&mut self) -> u64;
}

fn once(contestant: &mut dyn Contestant) -> Duration {
    contestant.prepare();
    let start = Instant::now();
    let done = contestant.work();
    let time = start.elapsed();
    // Used, so that no work can be left out.
    LAST.store(done, Ordering::Relaxed);
    time
}

static LAST: AtomicU64 = AtomicU64::new(0);

fn times(contestant: &mut dyn Contestant, repeats: u32) -> Duration {
    (0..repeats).map(|_| once(contestant)).sum::<Duration>() / repeats
}

/// The middle of each contestant's times in nanoseconds, in their order.
pub fn race(rounds: usize, contestants: &mut [Box<dyn Contestant + '_>]) -> Vec<f64> {
    let mut repeats = Vec::new();
    for contestant in contestants.iter_mut() {
        // The first time warms up; the second says how often to repeat.
        once(contestant.as_mut());
        let time = once(contestant.as_mut());
        let needed = SHORTEST.as_nanos() / time.as_nanos().max(1) + 1;
        repeats.push(needed.min(1_000_000) as u32);
    }
    let mut taken = vec![Vec::new(); contestants.len()];
    for round in 0..rounds {
        for turn in 0..contestants.len() {
            // Another goes first in each round.
            let place = (round + turn) % contestants.len();
            let time = times(contestants[place].as_mut(), repeats[place]);
            taken[place].push(time.as_secs_f64() * 1e9);
        }
    }
    taken.into_iter().map(median).collect()
}

fn median(mut times: Vec<f64>) -> f64 {
    times.sort_unstable_by(|one, two| one.total_cmp(two));
    let middle = times.len() / 2;
    if times.len() % 2 == 1 {
        times[middle]
    } else {
        (times[middle - 1] + times[middle]) / 2.0
    }
}
