//! The outline, "Tables are sound exactly when": one function for each part of that sentence, and one
//! for what request (ii) adds to it; the start year of request (iv) is among the limits. Every one of
//! them ends and answers for any values whatever, in whichever order they are asked.

use crate::raw::{Raw, RawNumber, RawRecord, RawWhy, BLANK_NUMBER, GLOBAL, LINKS, SYSTEM, UNUSED};
use crate::tables::{
    legal_name, CEILING, CHAINS, DISC, EARLIEST_YEAR, FURTHEST, GENERAL_WAIT, LATEST_YEAR,
    LOWEST_PRIORITY, MOST_NUMBERS, MOST_TRACKS, RECORDS,
};

impl Raw {
    /// Answer 14 if not.
    pub fn sound(&self) -> bool {
        self.limits_hold()
            && self.names_legal_and_distinct()
            && self.unused_hold_zeros()
            && self.timers_fit()
            && self.chains_hold_their_programs()
            && self.whys_fit()
            && self.marks_fit()
            && self.no_son_awaited_twice()
            && self.tracks_fit()
            && self.numbers_fit()
    }

    fn used(&self) -> impl Iterator<Item = &RawRecord> {
        self.records.iter().filter(|record| record.used)
    }

    /// The used record with this number, if there is one.
    fn used_record(&self, p: u64) -> Option<&RawRecord> {
        if !(1..=RECORDS as u64).contains(&p) {
            return None;
        }
        Some(&self.records[p as usize - 1]).filter(|record| record.used)
    }

    /// "the limits above hold"
    fn limits_hold(&self) -> bool {
        let states = |state| state == 0 || CHAINS.iter().any(|chain| u64::from(*chain) == state);
        (1..=MOST_TRACKS).contains(&self.t)
            && self.s <= self.t
            && self.r <= MOST_NUMBERS
            && self.clock <= CEILING
            && (EARLIEST_YEAR..=LATEST_YEAR).contains(&self.year)
            && self.used().all(|record| record.priority <= LOWEST_PRIORITY && states(record.state))
    }

    fn names_legal_and_distinct(&self) -> bool {
        let names: Vec<_> = self.used().map(|record| record.name).collect();
        let distinct = |place: usize| !names[..place].contains(&names[place]);
        names.iter().all(|name| legal_name(*name)) && (0..names.len()).all(distinct)
    }

    fn unused_hold_zeros(&self) -> bool {
        self.records.iter().all(|record| record.used || *record == UNUSED)
    }

    /// "each due is above the clock and at most clock + 1,474,200,000; intervals are at most
    /// 1,474,200,000", and both are zero without a timer. The clock is within its limit here, but a
    /// due need not be: it may lie above the ceiling of the clock.
    fn timers_fit(&self) -> bool {
        let last = self.clock.saturating_add(FURTHEST);
        self.used().all(|record| {
            if record.due == 0 {
                record.interval == 0
            } else {
                self.clock < record.due && record.due <= last && record.interval <= FURTHEST
            }
        })
    }

    /// "each chain holds just the programs of its state, once, priorities never falling, other
    /// links zero"
    fn chains_hold_their_programs(&self) -> bool {
        let mut linked = [false; RECORDS + 1];
        let all_right = CHAINS.iter().all(|state| self.chain_fits(*state, &mut linked));
        let no_use = [0, 2, 4, LINKS];
        all_right
            && no_use.iter().all(|slot| self.links[*slot] == 0)
            && (1..=RECORDS).all(|p| {
                let record = &self.records[p - 1];
                let in_chain = record.used && record.state != 0;
                linked[p] == in_chain && (linked[p] || self.links[LINKS + p] == 0)
            })
    }

    /// Follows one chain to its end, and notes its members. It stops at the first program that was
    /// met before, in this chain or in another, so it makes at most 32 steps.
    fn chain_fits(&self, state: u8, linked: &mut [bool; RECORDS + 1]) -> bool {
        let mut priority = 0;
        let mut next = self.links[usize::from(state)];
        while next != 0 {
            let record = match self.used_record(u64::from(next)) {
                Some(record) => record,
                None => return false,
            };
            let met = &mut linked[usize::from(next)];
            if *met || record.state != u64::from(state) || record.priority < priority {
                return false;
            }
            *met = true;
            priority = record.priority;
            next = self.links[LINKS + usize::from(next)];
        }
        true
    }

    /// "each why fits its state (nothing in 0, 1 and 6), with count 1 to T, resource 1 to R, son
    /// used, not dormant, not the waiter". States 3 and 5 never have nothing.
    fn whys_fit(&self) -> bool {
        (1..=RECORDS as u64).all(|p| match self.used_record(p) {
            Some(record) => self.why_fits(p, record),
            None => true,
        })
    }

    fn why_fits(&self, p: u64, record: &RawRecord) -> bool {
        let in_state = |state: u8| record.state == u64::from(state);
        match record.why {
            RawWhy::Nothing => !in_state(GENERAL_WAIT) && !in_state(DISC),
            RawWhy::Tracks(n) => in_state(DISC) && (1..=self.t).contains(&n),
            RawWhy::Son(k) => {
                let runs = self.used_record(k).map_or(false, |son| son.state != 0);
                in_state(GENERAL_WAIT) && runs && k != p
            }
            RawWhy::Lock(r) => in_state(GENERAL_WAIT) && (1..=self.r).contains(&r),
            RawWhy::Number => in_state(GENERAL_WAIT),
        }
    }

    /// Request (ii): "the mark only in states 3 and 5".
    fn marks_fit(&self) -> bool {
        let waits = |state| state == u64::from(GENERAL_WAIT) || state == u64::from(DISC);
        self.used().all(|record| !record.suspend || waits(record.state))
    }

    fn no_son_awaited_twice(&self) -> bool {
        (1..=RECORDS as u64).all(|k| {
            let fathers = self.used().filter(|record| record.why == RawWhy::Son(k));
            fathers.count() <= 1
        })
    }

    fn program_used(&self, p: u8) -> bool {
        self.used_record(u64::from(p)).is_some()
    }

    /// "the system holds just the tracks below S; programs that hold are used; entries at T and
    /// above are blank"
    fn tracks_fit(&self) -> bool {
        self.tracks.iter().enumerate().all(|(place, holder)| {
            let track = place as u64;
            if track >= self.t {
                return *holder == 0;
            }
            if track < self.s {
                return *holder == SYSTEM;
            }
            *holder == 0 || *holder == GLOBAL || self.program_used(*holder)
        })
    }

    /// "programs that own or lock are used; a free number has no lock; entries above R are blank"
    fn numbers_fit(&self) -> bool {
        self.numbers.iter().enumerate().all(|(place, number)| {
            let allocated = (place as u64) < self.r && number.owner != 0;
            *number == BLANK_NUMBER || allocated && self.number_fits(*number)
        })
    }

    fn number_fits(&self, number: RawNumber) -> bool {
        let owned = number.owner == GLOBAL || self.program_used(number.owner);
        owned && (number.lock == 0 || self.program_used(number.lock))
    }
}
