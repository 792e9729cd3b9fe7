//! The outline, "Calls of the running program": EXEC 6, 7, 9, 10, 11 and 12. The tracks and the
//! resource numbers have files of their own. Every call first needs a caller (2), then its
//! parameters (3).

use crate::answer::{allow, done, waits, Answer, Outcome, Value};
use crate::calendar::date;
use crate::tables::{
    legal_name, Engine, Name, Timer, Why, DORMANT, GENERAL_WAIT, SCHEDULED, SUSPENDED,
};
use crate::waking::Ending;

/// The ticks of resolution 1 to 4: a tick of 10 ms, a second, a minute, an hour.
pub const UNITS: [u64; 4] = [1, 100, 6_000, 360_000];
pub const TICKS_OF_A_DAY: u64 = 8_640_000;

impl Engine {
    /// EXEC 6: ending. Value programs woken.
    pub fn exec6(&mut self) -> Outcome {
        let caller = self.caller()?;
        let (_, woken) = self.ending(caller, Ending::Exec6);
        done(woken)
    }

    /// EXEC 7: to state 6, answer 0, value 0.
    pub fn exec7(&mut self) -> Outcome {
        let caller = self.caller()?;
        self.enter(caller, SUSPENDED, Why::Nothing);
        done(0)
    }

    /// EXEC 9: a dormant target is scheduled, else 5; then the caller waits for its son.
    pub fn exec9(&mut self, name: Name) -> Outcome {
        let caller = self.caller()?;
        let target = self.schedule_target(name)?;
        self.enter(caller, GENERAL_WAIT, Why::Son(target));
        waits(GENERAL_WAIT)
    }

    /// EXEC 10: the same without waiting. Value the target's number.
    pub fn exec10(&mut self, name: Name) -> Outcome {
        self.caller()?;
        let target = self.schedule_target(name)?;
        done(target as u64)
    }

    fn schedule_target(&mut self, name: Name) -> Result<usize, Answer> {
        allow(legal_name(name))?;
        let target = self.find(name)?;
        self.in_state(target, DORMANT)?;
        self.enter(target, SCHEDULED, Why::Nothing);
        Ok(target)
    }

    /// EXEC 11: year, day, hour, minute, second, hundredth.
    pub fn exec11(&self) -> Outcome {
        self.caller()?;
        Ok(Answer { number: 0, value: Value::Time(self.time()) })
    }

    /// "Clock 0 is the start of day 1 of that year", the start year: request (iv).
    fn time(&self) -> [u64; 6] {
        let (year, day) = date(self.year, self.clock / TICKS_OF_A_DAY);
        let hundredths = self.clock % TICKS_OF_A_DAY;
        let seconds = hundredths / 100;
        [year, day, seconds / 3600, seconds / 60 % 60, seconds % 60, hundredths % 100]
    }

    /// EXEC 12: sets or replaces the timer of any program, in any state. Value due.
    pub fn exec12(&mut self, name: Name, resolution: u64, multiple: u64, offset: u64) -> Outcome {
        self.caller()?;
        allow(legal_name(name) && (1..=4).contains(&resolution))?;
        allow(multiple <= 4095 && (1..=4095).contains(&offset))?;
        let p = self.find(name)?;
        let unit = UNITS[resolution as usize - 1];
        let due = self.clock + offset * unit;
        self.program(p).timer = Some(Timer { due, interval: multiple * unit });
        done(due)
    }
}
