//! The calendar: every month and every date of its years, the numbers beside them, and others.

use super::names;
use crate::draw::Draw;
use crate::lent::Lent;
use crate::library;
use crate::second::calendar::{self, months, Date, Month, MONDAY, SATURDAY, SUNDAY};
use crate::tally::Round;

/// So many first rounds go through every month, and through every date.
pub const YEARS: u64 = 28;
pub const MONTHS: u64 = 336;

/// Beside the range, and equal to a number within it in 8, 16, 32 or 63 bits.
const OTHER_YEARS: [u64; 14] =
    [0, 1, 1900, 1999, 2000, 2008, 2009, 2038, 2040, 2100, 65_536 + 2024, (1 << 32) + 2024, (1 << 63) + 2024, u64::MAX];
const OTHER_MONTHS: [u64; 7] = [0, 13, 14, 256 + 5, (1 << 32) + 5, (1 << 63) + 5, u64::MAX];
const OTHER_HOURS: [u64; 6] = [27, 31, 256 + 8, (1 << 32) + 8, (1 << 63) + 8, u64::MAX];
const OTHER_DAYS: [u64; 7] = [0, 32, 33, 256 + 5, (1 << 32) + 5, (1 << 63) + 5, u64::MAX];

pub const HOURS: [&str; 8] =
    ["384", "400", "416", "432", "29 days", "a holiday on Sunday", "a holiday on Saturday", "a month of no holiday"];
pub const PERIODS: [&str; 7] =
    ["on-peak", "off-peak", "hour 25", "a Sunday", "a holiday", "a Monday after a holiday", "neither date nor hour"];
pub const WEEKDAYS: [&str; 5] =
    ["29 February", "29 February in a year of 365 days", "31 of a month of 30", "the first day", "the last day"];
pub const LATER: [&str; 7] =
    ["cut to 28", "cut to 29", "cut to 30", "over the year's end", "outside when reached", "outside, and reaching inside", "the day kept"];

fn year(draw: &mut Draw) -> u64 {
    match draw.below(8) {
        0 => draw.pick(&OTHER_YEARS),
        1 => draw.next(),
        _ => 2009 + draw.below(30),
    }
}

fn month(draw: &mut Draw) -> u64 {
    match draw.below(8) {
        0 => draw.pick(&OTHER_MONTHS),
        1 => draw.next(),
        _ => draw.below(14),
    }
}

fn day(draw: &mut Draw) -> u64 {
    match draw.below(8) {
        0 => draw.pick(&OTHER_DAYS),
        1 => draw.next(),
        2 | 3 => 28 + draw.below(5),
        _ => draw.below(33),
    }
}

fn date(draw: &mut Draw) -> Date {
    (year(draw), month(draw), day(draw))
}

/// Whether the month is one of the paper's and so.
fn some(year: u64, month: u64, holds: impl Fn(&Month) -> bool) -> bool {
    calendar::place(year, month).is_ok_and(|at| holds(&months()[at]))
}

fn hours_call(round: &mut Round, year: u64, month: u64) {
    let mut hours = Lent::<u64>::new(&mut round.draw, "hours", 1);
    let proved = library::month_hours(year, month, hours.figure());
    let second = calendar::month_hours(year, month);
    let figure: Vec<i128> = second.into_iter().collect();
    round.compare(proved, second.err().unwrap_or(0), &[hours.difference(&figure)]);
    let holiday = |weekday: u64| some(year, month, |own| own.holiday.is_some_and(|day| own.weekdays[day as usize - 1] == weekday));
    let shown = [
        second == Ok(384),
        second == Ok(400),
        second == Ok(416),
        second == Ok(432),
        some(year, month, |own| own.weekdays.len() == 29),
        holiday(SUNDAY),
        holiday(SATURDAY),
        some(year, month, |own| own.holiday.is_none()),
    ];
    round.shown(&names(&HOURS, shown));
}

/// A year's months and the numbers beside them.
pub fn hours(round: &mut Round) {
    let year = if round.number < YEARS { 2010 + round.number } else { year(&mut round.draw) };
    for month in (1..=12).chain(OTHER_MONTHS) {
        hours_call(round, year, month);
    }
    let (other_year, other_month) = (self::year(&mut round.draw), month(&mut round.draw));
    hours_call(round, other_year, other_month);
}

/// A month's dates and the numbers beside them; some more of any month.
fn dates(round: &mut Round) -> Vec<Date> {
    let known = months().get(round.number as usize).map(|own| (own.year, own.month));
    let (year, month) = known.unwrap_or_else(|| (year(&mut round.draw), month(&mut round.draw)));
    let mut dates: Vec<Date> = (1..=31).chain(OTHER_DAYS).map(|day| (year, month, day)).collect();
    dates.extend((0..8).map(|_| date(&mut round.draw)));
    dates
}

fn period_call(round: &mut Round, date: Date, hour: u64) {
    let (year, month, day) = date;
    let mut period = Lent::<u64>::new(&mut round.draw, "period", 1);
    let proved = library::hour_period(year, month, day, hour, period.figure());
    let second = calendar::hour_period(date, hour);
    let figure: Vec<i128> = second.into_iter().collect();
    round.compare(proved, second.err().unwrap_or(0), &[period.difference(&figure)]);
    let day_time = second.is_ok() && (7..=22).contains(&hour);
    let shown = [
        second == Ok(1),
        second == Ok(0),
        second.is_ok() && hour == 25,
        day_time && calendar::weekday(date) == Ok(SUNDAY.into()),
        day_time && some(year, month, |own| own.holiday == Some(day)),
        day_time && calendar::weekday(date) == Ok(MONDAY.into()) && some(year, month, |own| own.holiday == Some(day - 1)),
        calendar::weekday(date).is_err() && !(1..=25).contains(&hour),
    ];
    round.shown(&names(&PERIODS, shown));
}

/// Every hour of a month's dates, the numbers beside them, and another.
pub fn periods(round: &mut Round) {
    for date in dates(round) {
        for hour in 0..=26 {
            period_call(round, date, hour);
        }
        let other = round.draw.pick(&OTHER_HOURS);
        period_call(round, date, other);
    }
}

fn weekday_call(round: &mut Round, date: Date) {
    let (year, month, day) = date;
    let mut weekday = Lent::<u64>::new(&mut round.draw, "weekday", 1);
    let proved = library::weekday(year, month, day, weekday.figure());
    let second = calendar::weekday(date);
    let figure: Vec<i128> = second.into_iter().collect();
    round.compare(proved, second.err().unwrap_or(0), &[weekday.difference(&figure)]);
    let february_29 = (month, day) == (2, 29);
    let shown = [
        february_29 && second.is_ok(),
        february_29 && second.is_err() && (2010..=2037).contains(&year),
        day == 31 && some(year, month, |own| own.weekdays.len() == 30),
        date == (2010, 1, 1),
        date == (2037, 12, 31),
    ];
    round.shown(&names(&WEEKDAYS, shown));
}

pub fn weekdays(round: &mut Round) {
    for date in dates(round) {
        weekday_call(round, date);
    }
}

fn later_call(round: &mut Round, date: Date) {
    let (year, month, day) = date;
    let [mut later_year, mut later_month, mut later_day] =
        ["later_year", "later_month", "later_day"].map(|name| Lent::<u64>::new(&mut round.draw, name, 1));
    let proved = library::month_later(year, month, day, later_year.figure(), later_month.figure(), later_day.figure());
    let second = calendar::month_later(date);
    let figures: [Vec<i128>; 3] = match second {
        Ok((year, month, day)) => [year, month, day].map(|figure| vec![figure.into()]),
        Err(_) => Default::default(),
    };
    let differences = [later_year.difference(&figures[0]), later_month.difference(&figures[1]), later_day.difference(&figures[2])];
    round.compare(proved, second.err().unwrap_or(0), &differences);
    let cut = |to: u64| second.is_ok_and(|later| later.2 == to && day > to);
    let shown = [
        cut(28),
        cut(29),
        cut(30),
        second.is_ok_and(|later| later.0 == year + 1),
        second.is_err() && calendar::weekday(date).is_ok(),
        second.is_err() && (year, month) == (2009, 12) && (1..=31).contains(&day),
        second.is_ok_and(|later| later.2 == day),
    ];
    round.shown(&names(&LATER, shown));
}

pub fn later(round: &mut Round) {
    for date in dates(round) {
        later_call(round, date);
    }
}
