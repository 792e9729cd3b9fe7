//! Request (iii): many ticks at once. Few of them are done one after another, which is what the
//! request says. Of many, only those are done at which somebody starts; the time between is passed
//! at one go. No tick makes a program dormant, so that at most 32 of them start somebody, however
//! many there are.

use crate::answer::{self, allow, done, require, Outcome};
use crate::tables::{Engine, CEILING, DORMANT};

/// The most ticks of one call.
pub const MOST_TICKS: u64 = 100_000_000;

/// So many are done one after another.
pub const ONE_BY_ONE: u64 = 256;

impl Engine {
    /// TICK with a number: "the tables that n single ticks give, and as value the sum of theirs".
    /// Refused it changes nothing; no part of the ticks is made.
    pub fn ticks(&mut self, n: u64) -> Outcome {
        allow((1..=MOST_TICKS).contains(&n))?;
        require(self.clock + n <= CEILING, answer::CEILING)?;
        done(if n <= ONE_BY_ONE { self.one_by_one(n) } else { self.due_by_due(n) })
    }

    /// How many programs n single ticks schedule. The clock has room for them.
    pub fn one_by_one(&mut self, n: u64) -> u64 {
        let mut scheduled = 0;
        for _ in 0..n {
            scheduled += self.one_tick();
        }
        scheduled
    }

    /// The same, from one moment at which somebody starts to the next.
    pub fn due_by_due(&mut self, n: u64) -> u64 {
        let end = self.clock + n;
        let mut scheduled = 0;
        while let Some(moment) = self.next_start(end) {
            self.pass(moment - 1);
            scheduled += self.one_tick();
        }
        self.pass(end);
        scheduled
    }

    /// The first moment, up to the end, at which a dormant program is due.
    fn next_start(&self, end: u64) -> Option<u64> {
        let dormant = self.programs.values().filter(|program| program.state == DORMANT);
        let dues = dormant.filter_map(|program| program.timer).map(|timer| timer.due);
        dues.filter(|due| *due <= end).min()
    }

    /// Time passes up to this tick, and nobody starts: the timers that come due are those of programs
    /// that are not dormant.
    fn pass(&mut self, until: u64) {
        for program in self.programs.values_mut() {
            if let Some(timer) = &mut program.timer {
                if timer.due > until {
                    continue;
                }
                if timer.interval > 0 {
                    // The first due behind it that is a number of intervals from the old one.
                    let over = (until - timer.due) % timer.interval;
                    timer.due = until - over + timer.interval;
                } else {
                    program.timer = None;
                }
            }
        }
        self.clock = until;
    }
}
