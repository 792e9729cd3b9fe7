//! The outline, "Answer numbers": each call answers with a number and a value.

/// One number for every call but EXEC 11, whose value is the six parts of the time.
#[derive(Clone, Copy, Debug, PartialEq, Eq)]
pub enum Value {
    Number(u64),
    /// year, day, hour, minute, second, hundredth
    Time([u64; 6]),
}

#[derive(Clone, Copy, Debug, PartialEq, Eq)]
pub struct Answer {
    pub number: u64,
    pub value: Value,
}

/// `Ok` holds answer 0 or 1, `Err` a refusal (2 to 15), so that a test that fails can leave its
/// call with `?` before anything was changed.
pub type Outcome = Result<Answer, Answer>;

pub const NO_CALLER: u64 = 2;
pub const NOT_ALLOWED: u64 = 3;
pub const NO_PROGRAM: u64 = 4;
pub const WRONG_STATE: u64 = 5;
pub const NAME_IN_USE: u64 = 6;
pub const ALL_USED: u64 = 7;
pub const NO_ROOM: u64 = 8;
pub const NOT_HOLDER: u64 = 9;
pub const NOT_ALLOCATED: u64 = 10;
pub const CEILING: u64 = 11;
pub const TOO_SHORT: u64 = 12;
pub const NOT_UNDERSTOOD: u64 = 13;
pub const NOT_SOUND: u64 = 14;
pub const NOT_READ: u64 = 15;
pub const NO_LINE: u64 = 17;

impl Answer {
    pub fn new(number: u64, value: u64) -> Answer {
        Answer { number, value: Value::Number(value) }
    }

    /// The answer of a call, whether it was refused or not.
    pub fn of(outcome: Outcome) -> Answer {
        match outcome {
            Ok(answer) | Err(answer) => answer,
        }
    }
}

/// Answer 0.
pub fn done(value: u64) -> Outcome {
    Ok(Answer::new(0, value))
}

/// Answer 1: the caller now waits; the value is the state it entered.
pub fn waits(state: u8) -> Outcome {
    Ok(Answer::new(1, u64::from(state)))
}

/// A refusal with value 0.
pub fn refused(number: u64) -> Outcome {
    Err(Answer::new(number, 0))
}

/// One test of a call: refused with this number, value 0, unless the condition holds.
pub fn require(condition: bool, number: u64) -> Result<(), Answer> {
    if condition {
        Ok(())
    } else {
        Err(Answer::new(number, 0))
    }
}

/// Test 3: number, name or parameter not allowed.
pub fn allow(condition: bool) -> Result<(), Answer> {
    require(condition, NOT_ALLOWED)
}
