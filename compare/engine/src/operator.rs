//! The outline, "Operator requests". The tests of each call stand in the order of "Answer numbers".

use crate::answer::{self, allow, done, refused, require, Outcome};
use crate::tables::{
    legal_name, Engine, Name, Program, Why, CEILING, DORMANT, LOWEST_PRIORITY, RECORDS, SCHEDULED,
    SUSPENDED,
};
use crate::waking::Ending;

impl Engine {
    /// LOAD: lowest unused record, dormant. Value its number.
    pub fn load(&mut self, name: Name, priority: u64) -> Outcome {
        allow(legal_name(name) && priority <= LOWEST_PRIORITY)?;
        require(self.find(name).is_err(), answer::NAME_IN_USE)?;
        let unused = (1..=RECORDS).find(|p| !self.programs.contains_key(p));
        let p = match unused {
            Some(p) => p,
            None => return refused(answer::ALL_USED),
        };
        let program = Program {
            name,
            priority,
            state: DORMANT,
            why: Why::Nothing,
            timer: None,
            suspend: false,
            entry: 0,
        };
        self.programs.insert(p, program);
        done(p as u64)
    }

    /// RU: dormant becomes scheduled, else 5.
    pub fn ru(&mut self, name: Name) -> Outcome {
        self.move_named(name, DORMANT, SCHEDULED)
    }

    /// SS: scheduled becomes operator suspended. A program that waits is marked and waits on, which
    /// changes nothing if the mark stands already: request (ii). Else 5.
    pub fn ss(&mut self, name: Name) -> Outcome {
        allow(legal_name(name))?;
        let p = self.find(name)?;
        if self.waits(p) {
            self.program(p).suspend = true;
            return done(0);
        }
        self.move_named(name, SCHEDULED, SUSPENDED)
    }

    /// GO: operator suspended becomes scheduled, else 5.
    pub fn go(&mut self, name: Name) -> Outcome {
        self.move_named(name, SUSPENDED, SCHEDULED)
    }

    fn move_named(&mut self, name: Name, from: u8, to: u8) -> Outcome {
        allow(legal_name(name))?;
        let p = self.find(name)?;
        self.in_state(p, from)?;
        self.enter(p, to, Why::Nothing);
        done(0)
    }

    /// PR: new priority; a program in a chain leaves it and enters it anew, even for the same
    /// number. Value the old priority.
    pub fn pr(&mut self, name: Name, priority: u64) -> Outcome {
        allow(legal_name(name) && (1..=LOWEST_PRIORITY).contains(&priority))?;
        let p = self.find(name)?;
        let (state, why, old) = {
            let program = &self.programs[&p];
            (program.state, program.why, program.priority)
        };
        self.program(p).priority = priority;
        if state != DORMANT {
            self.enter(p, state, why);
        }
        done(old)
    }

    /// OF: ending, in any state. Value tracks freed.
    pub fn of(&mut self, name: Name, how: u64) -> Outcome {
        allow(legal_name(name) && (how == 1 || how == 8))?;
        let p = self.find(name)?;
        let ending = if how == 8 { Ending::Of8 } else { Ending::Of1 };
        let (freed, _) = self.ending(p, ending);
        done(freed)
    }

    /// TICK: one tick. Value programs scheduled. With a number it is in `ticks`.
    pub fn tick(&mut self) -> Outcome {
        require(self.clock < CEILING, answer::CEILING)?;
        done(self.one_tick())
    }

    /// Clock + 1, then by program number each timer now due. How many programs were scheduled.
    pub(crate) fn one_tick(&mut self) -> u64 {
        self.clock += 1;
        let mut scheduled = 0;
        for p in self.now_due() {
            if self.programs[&p].state == DORMANT {
                self.enter(p, SCHEDULED, Why::Nothing);
                scheduled += 1;
            }
            self.move_due(p);
        }
        scheduled
    }

    /// The programs whose timer is due at this tick, by program number.
    fn now_due(&self) -> Vec<usize> {
        let mut due = Vec::new();
        for (p, program) in &self.programs {
            if let Some(timer) = program.timer {
                if timer.due == self.clock {
                    due.push(*p);
                }
            }
        }
        due
    }

    /// "due grows by the interval, or the timer goes if that is 0"
    fn move_due(&mut self, p: usize) {
        let program = self.program(p);
        if let Some(timer) = &mut program.timer {
            if timer.interval > 0 {
                timer.due += timer.interval;
            } else {
                program.timer = None;
            }
        }
    }
}
