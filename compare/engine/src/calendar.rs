//! Request (iv): the calendar. "Years follow the Gregorian rule": each fourth year is a leap year,
//! but of those that end a century only each fourth one. No year is counted after another here: the
//! calendar is the same again after 400 years, so that days are numbered from the first of such a
//! cycle, and cycles, centuries, fours and years are taken off that number by division.

/// A common year; each of the cycles below has the leap days of its years more.
const A_YEAR: u64 = 365;
const FOUR_YEARS: u64 = 4 * A_YEAR + 1;
/// Its last year is no leap year.
const A_CENTURY: u64 = 25 * FOUR_YEARS - 1;
/// Its last century ends with a leap year.
const FOUR_CENTURIES: u64 = 4 * A_CENTURY + 1;

/// The year and the day within it, from 1, so many days after day 1 of the start year.
pub fn date(start_year: u64, days: u64) -> (u64, u64) {
    let day = days_before(start_year) + days;
    let (cycles, day) = (day / FOUR_CENTURIES, day % FOUR_CENTURIES);
    // The last century of four has one day more, and so has the last year of four: no fifth begins.
    let centuries = (day / A_CENTURY).min(3);
    let day = day - centuries * A_CENTURY;
    let (fours, day) = (day / FOUR_YEARS, day % FOUR_YEARS);
    let years = (day / A_YEAR).min(3);
    let day = day - years * A_YEAR;
    (400 * cycles + 100 * centuries + 4 * fours + years + 1, day + 1)
}

/// The days of all years before this one, from year 1 on, with which a cycle begins.
fn days_before(year: u64) -> u64 {
    let years = year - 1;
    years * A_YEAR + years / 4 - years / 100 + years / 400
}
