//! The outline, "Calls of the running program": EXEC 4, 15, 5 and 16, the calls for disc tracks.

use crate::answer::{self, allow, done, refused, require, waits, Outcome};
use crate::tables::{Engine, Holder, Why, DISC};
use crate::waking::Released;

impl Engine {
    /// EXEC 4: tracks of the caller's own.
    pub fn exec4(&mut self, n: u64, w: u64) -> Outcome {
        let caller = self.caller()?;
        self.claim(caller, Holder::Program(caller), n, w)
    }

    /// EXEC 15: global tracks.
    pub fn exec15(&mut self, n: u64, w: u64) -> Outcome {
        let caller = self.caller()?;
        self.claim(caller, Holder::Global, n, w)
    }

    /// The lowest run of n free tracks; value its first. None: wait in state 5, or 8.
    fn claim(&mut self, caller: usize, holder: Holder, n: u64, w: u64) -> Outcome {
        allow((1..=self.t()).contains(&n) && w <= 1)?;
        if let Some(first) = self.free_run(n) {
            for track in &mut self.tracks[first as usize..(first + n) as usize] {
                *track = holder;
            }
            return done(first);
        }
        require(w == 0, answer::NO_ROOM)?;
        self.enter(caller, DISC, Why::Tracks(n));
        waits(DISC)
    }

    /// The first track of the lowest run of n free ones.
    pub fn free_run(&self, n: u64) -> Option<u64> {
        let mut length = 0;
        for track in 0..self.t() {
            if self.tracks[track as usize] == Holder::Free {
                length += 1;
            } else {
                length = 0;
            }
            if length == n {
                return Some(track + 1 - n);
            }
        }
        None
    }

    /// EXEC 5 with n and start: every track must be the caller's, else 9.
    pub fn exec5(&mut self, n: u64, start: u64) -> Outcome {
        let caller = self.caller()?;
        self.give_back(Holder::Program(caller), n, start)
    }

    /// EXEC 16: every track must be global, else 9.
    pub fn exec16(&mut self, n: u64, start: u64) -> Outcome {
        self.caller()?;
        self.give_back(Holder::Global, n, start)
    }

    fn give_back(&mut self, holder: Holder, n: u64, start: u64) -> Outcome {
        let end = match start.checked_add(n) {
            Some(end) if n >= 1 && end <= self.t() => end,
            _ => return refused(answer::NOT_ALLOWED),
        };
        let run = &mut self.tracks[start as usize..end as usize];
        require(run.iter().all(|track| *track == holder), answer::NOT_HOLDER)?;
        run.fill(Holder::Free);
        self.wake(&Released { tracks: n, ..Released::default() });
        done(n)
    }

    /// EXEC 5 with ALL: all the caller holds, perhaps none.
    pub fn exec5_all(&mut self) -> Outcome {
        let caller = self.caller()?;
        let freed = self.free_tracks_of(caller);
        self.wake(&Released { tracks: freed, ..Released::default() });
        done(freed)
    }

    /// Frees every track that p holds; how many there were.
    pub(crate) fn free_tracks_of(&mut self, p: usize) -> u64 {
        let mut freed = 0;
        for track in &mut self.tracks {
            if *track == Holder::Program(p) {
                *track = Holder::Free;
                freed += 1;
            }
        }
        freed
    }
}
