//! The outline, "Ending and waking".

use crate::tables::{
    Engine, Holder, Why, DISC, DORMANT, FREE_NUMBER, GENERAL_WAIT, SCHEDULED, SUSPENDED,
};

/// Which request ends the program.
#[derive(Clone, Copy, Debug, PartialEq, Eq)]
pub enum Ending {
    Exec6,
    Of1,
    Of8,
}

/// What a call set free, by which others may wake.
#[derive(Clone, Debug, Default)]
pub struct Released {
    /// How many tracks.
    pub tracks: u64,
    /// The program that ended.
    pub ended: Option<usize>,
    pub cleared: Vec<usize>,
    pub deallocated: Vec<usize>,
}

impl Engine {
    /// Ending p. How many tracks were freed, and how many programs woken.
    pub(crate) fn ending(&mut self, p: usize, how: Ending) -> (u64, u64) {
        // It leaves its chain, becomes dormant, its why goes, and so does its mark.
        self.enter(p, DORMANT, Why::Nothing);
        self.program(p).suspend = false;
        // For OF its timer goes and its tracks are freed; EXEC 6 keeps both.
        let mut released = Released { ended: Some(p), ..Released::default() };
        if how != Ending::Exec6 {
            self.program(p).timer = None;
            released.tracks = self.free_tracks_of(p);
        }
        self.release_numbers(p, &mut released);
        // OF 8 makes the record unused.
        if how == Ending::Of8 {
            self.programs.remove(&p);
        }
        let freed = released.tracks;
        let woken = self.wake(&released);
        (freed, woken)
    }

    /// "Numbers it owns are deallocated (another's lock on one goes too), locks it holds cleared."
    fn release_numbers(&mut self, p: usize, released: &mut Released) {
        for (place, number) in self.numbers.iter_mut().enumerate() {
            let r = place + 1;
            if number.owner == Holder::Program(p) {
                *number = FREE_NUMBER;
                released.deallocated.push(r);
            } else if number.lock == Some(p) {
                number.lock = None;
                released.cleared.push(r);
            }
        }
    }

    /// All of chain 5 wakes if at least one track was freed; then chain 3 is walked once. How many
    /// programs woke, those sent to chain 6 among them.
    pub(crate) fn wake(&mut self, released: &Released) -> u64 {
        let mut woken = 0;
        if released.tracks > 0 {
            for p in self.chain(DISC) {
                self.move_woken(p);
                woken += 1;
            }
        }
        woken + self.walk_chain3(released)
    }

    fn walk_chain3(&mut self, released: &Released) -> u64 {
        let mut woken = 0;
        for p in self.chain(GENERAL_WAIT) {
            if wakes(self.programs[&p].why, released) {
                self.move_woken(p);
                woken += 1;
            }
        }
        woken
    }

    /// The woken enter the scheduled chain one by one; one that is marked goes to chain 6 instead,
    /// and loses the mark. Waking grants nothing.
    fn move_woken(&mut self, p: usize) {
        if self.programs[&p].suspend {
            self.program(p).suspend = false;
            self.enter(p, SUSPENDED, Why::Nothing);
        } else {
            self.enter(p, SCHEDULED, Why::Nothing);
        }
    }
}

/// "a program wakes if its why is son p, the lock of a number cleared or deallocated, or any number
/// where one was deallocated"
fn wakes(why: Why, released: &Released) -> bool {
    match why {
        Why::Son(son) => released.ended == Some(son),
        Why::Lock(r) => released.cleared.contains(&r) || released.deallocated.contains(&r),
        Why::Number => !released.deallocated.is_empty(),
        Why::Nothing | Why::Tracks(_) => false,
    }
}
