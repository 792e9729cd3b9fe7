//! The outline, "The page and the console line": the page.

use crate::answer::{self, done, Answer, Outcome};
use crate::tables::{shown_name, Engine, Holder, Program, Timer, Why, CHAINS, USUAL_YEAR};

impl Engine {
    /// PAGE: written at the front of the lent buffer, the rest untouched; value its length. A
    /// buffer too short is refused with the bytes needed, and no byte of it is written.
    pub fn page(&self, buffer: &mut [u8]) -> Outcome {
        let page = self.page_bytes();
        if buffer.len() < page.len() {
            return Err(Answer::new(answer::TOO_SHORT, page.len() as u64));
        }
        buffer[..page.len()].copy_from_slice(&page);
        done(page.len() as u64)
    }

    /// Lines of key=value, each ended by byte 10.
    pub fn page_bytes(&self) -> Vec<u8> {
        let mut page = String::from("page=rte2\n");
        line(&mut page, "clock", self.clock);
        if self.year != USUAL_YEAR {
            line(&mut page, "year", self.year);
        }
        line(&mut page, "tracks", self.t());
        line(&mut page, "system", self.system);
        line(&mut page, "numbers", self.r());
        line(&mut page, "programs", self.programs.len());
        for (p, program) in &self.programs {
            record(&mut page, *p, program);
        }
        for state in CHAINS {
            let members: Vec<String> = self.chain(state).iter().map(|p| p.to_string()).collect();
            page += &format!("chain{}={}\n", state, members.join(","));
        }
        self.held_lines(&mut page);
        self.number_lines(&mut page);
        page += "end=page\n";
        page.into_bytes()
    }

    /// `held=first-last:holder` for each longest run of one holder, upward; none for system tracks
    /// and none for free ones.
    fn held_lines(&self, page: &mut String) {
        let mut first = 0;
        for track in 0..self.tracks.len() {
            let holder = self.tracks[track];
            if self.tracks.get(track + 1) == Some(&holder) {
                continue;
            }
            if matches!(holder, Holder::Program(_) | Holder::Global) {
                line(page, "held", format!("{}-{}:{}", first, track, holder_text(holder)));
            }
            first = track + 1;
        }
    }

    /// `number=r:owner:lock` for each allocated one, upward.
    fn number_lines(&self, page: &mut String) {
        for (place, number) in self.numbers.iter().enumerate() {
            if number.owner != Holder::Free {
                let lock = number.lock.map_or(String::from("-"), |p| p.to_string());
                let owner = holder_text(number.owner);
                line(page, "number", format!("{}:{}:{}", place + 1, owner, lock));
            }
        }
    }
}

fn line(page: &mut String, key: &str, value: impl std::fmt::Display) {
    *page += &format!("{}={}\n", key, value);
}

fn record(page: &mut String, p: usize, program: &Program) {
    line(page, "id", p);
    line(page, "name", shown_name(program.name));
    line(page, "priority", program.priority);
    line(page, "state", program.state);
    line(page, "why", why_text(program.why));
    let or_dash = |part: fn(&Timer) -> u64| {
        program.timer.as_ref().map_or(String::from("-"), |timer| part(timer).to_string())
    };
    line(page, "due", or_dash(|timer| timer.due));
    line(page, "interval", or_dash(|timer| timer.interval));
    if program.suspend {
        line(page, "suspend", 1);
    }
}

fn why_text(why: Why) -> String {
    match why {
        Why::Nothing => String::from("-"),
        Why::Tracks(n) => format!("tracks:{}", n),
        Why::Son(k) => format!("son:{}", k),
        Why::Lock(r) => format!("lock:{}", r),
        Why::Number => String::from("number"),
    }
}

/// "a number or `global`"; the other two holders are never shown.
fn holder_text(holder: Holder) -> String {
    match holder {
        Holder::Program(p) => p.to_string(),
        Holder::Global => String::from("global"),
        Holder::Free | Holder::System => String::from("-"),
    }
}
