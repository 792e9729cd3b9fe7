//! The outline, "Calls of the running program": RN ALLOC, LOCK, CLEAR and FREE, the resource
//! numbers.

use crate::answer::{self, allow, done, require, waits, Answer, Outcome};
use crate::tables::{Engine, Holder, Number, Why, FREE_NUMBER, GENERAL_WAIT};
use crate::waking::Released;

/// How a number is allocated.
#[derive(Clone, Copy, Debug, PartialEq, Eq)]
pub enum Kind {
    Local,
    Global,
}

impl Engine {
    /// RN ALLOC: lowest free number, else wait for any number, or 8. Value the number.
    pub fn alloc(&mut self, kind: Kind, w: u64) -> Outcome {
        let caller = self.caller()?;
        allow(w <= 1)?;
        let owner = match kind {
            Kind::Local => Holder::Program(caller),
            Kind::Global => Holder::Global,
        };
        let lowest = self.numbers.iter().position(|number| number.owner == Holder::Free);
        if let Some(place) = lowest {
            // A free number has no lock.
            self.numbers[place].owner = owner;
            return done(place as u64 + 1);
        }
        require(w == 0, answer::NO_ROOM)?;
        self.enter(caller, GENERAL_WAIT, Why::Number);
        waits(GENERAL_WAIT)
    }

    /// RN LOCK: locked by another, wait or 8; locked by the caller already, done. A program may
    /// lock a number that another owns. Value the number.
    pub fn lock(&mut self, r: u64, w: u64) -> Outcome {
        let caller = self.caller()?;
        allow((1..=self.r()).contains(&r) && w <= 1)?;
        let number = self.allocated(r)?;
        if free_for(number, caller) {
            self.numbers[r as usize - 1].lock = Some(caller);
            return done(r);
        }
        require(w == 0, answer::NO_ROOM)?;
        self.enter(caller, GENERAL_WAIT, Why::Lock(r as usize));
        waits(GENERAL_WAIT)
    }

    /// RN CLEAR: locked by another, 9; clear already, done, and none wakes. Value programs woken.
    pub fn clear(&mut self, r: u64) -> Outcome {
        let caller = self.caller()?;
        allow((1..=self.r()).contains(&r))?;
        let number = self.allocated(r)?;
        require(free_for(number, caller), answer::NOT_HOLDER)?;
        if number.lock.is_none() {
            return done(0);
        }
        self.numbers[r as usize - 1].lock = None;
        let released = Released { cleared: vec![r as usize], ..Released::default() };
        let woken = self.wake(&released);
        done(woken)
    }

    /// RN FREE: owned by another program, or locked by another, 9. Value programs woken.
    pub fn free(&mut self, r: u64) -> Outcome {
        let caller = self.caller()?;
        allow((1..=self.r()).contains(&r))?;
        let number = self.allocated(r)?;
        let mine = number.owner == Holder::Program(caller);
        require(mine || number.owner == Holder::Global, answer::NOT_HOLDER)?;
        require(free_for(number, caller), answer::NOT_HOLDER)?;
        self.numbers[r as usize - 1] = FREE_NUMBER;
        let released = Released { deallocated: vec![r as usize], ..Released::default() };
        let woken = self.wake(&released);
        done(woken)
    }

    /// Test 10: resource number not allocated.
    fn allocated(&self, r: u64) -> Result<Number, Answer> {
        let number = self.numbers[r as usize - 1];
        require(number.owner != Holder::Free, answer::NOT_ALLOCATED)?;
        Ok(number)
    }
}

/// Not locked by another.
fn free_for(number: Number, caller: usize) -> bool {
    number.lock.is_none() || number.lock == Some(caller)
}
