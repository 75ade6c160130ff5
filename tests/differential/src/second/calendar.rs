//! Paper 1, by walking day after day from 1 January 1900, which was a Monday. No weekday is worked out from a date, and a holiday is found by counting
//! the Mondays or the Thursdays of its month.

use super::Answer;
use std::sync::OnceLock;

const START: u64 = 1900;
const FIRST: u64 = 2010;
const LAST: u64 = 2037;
const NO_SUCH_DATE: u64 = 19;

pub const MONDAY: u64 = 1;
pub const THURSDAY: u64 = 4;
pub const SATURDAY: u64 = 6;
pub const SUNDAY: u64 = 7;

/// A year, a month and a day, whether or not there is such a date.
pub type Date = (u64, u64, u64);

/// A month of the walk.
pub struct Month {
    pub year: u64,
    pub month: u64,
    /// Of each day, from the first on.
    pub weekdays: Vec<u64>,
    pub holiday: Option<u64>,
    /// Of each day, whether it has on-peak hours.
    pub on_peak: Vec<bool>,
    pub hours: i128,
}

fn leap(year: u64) -> bool {
    year % 400 == 0 || (year % 4 == 0 && year % 100 != 0)
}

/// Thirty days has September, April, June and November.
fn length(year: u64, month: u64) -> usize {
    match month {
        9 | 4 | 6 | 11 => 30,
        2 if leap(year) => 29,
        2 => 28,
        _ => 31,
    }
}

/// "1 January, May's last Monday, 4 July, September's first Monday, November's fourth Thursday and 25 December": a month has one or none.
fn holiday(month: u64, weekdays: &[u64]) -> Option<u64> {
    let every = |weekday: u64| (1..).zip(weekdays).filter(move |&(_, &own)| own == weekday).map(|(day, _)| day);
    match month {
        1 => Some(1),
        5 => every(MONDAY).last(),
        7 => Some(4),
        9 => every(MONDAY).next(),
        11 => every(THURSDAY).nth(3),
        12 => Some(25),
        _ => None,
    }
}

/// The days that have on-peak hours. `moved`: the day before the month's first is a holiday and a Sunday; the same of its last, at the end.
fn on_peak_days(weekdays: &[u64], holiday: Option<u64>, moved: &mut bool) -> Vec<bool> {
    let mut days = Vec::new();
    for (day, &weekday) in (1..).zip(weekdays) {
        let own = holiday == Some(day);
        days.push(weekday != SUNDAY && !own && !*moved);
        *moved = own && weekday == SUNDAY;
    }
    days
}

/// "On-peak is hours ending 7 to 22"
fn peak(hour_ending: u64) -> bool {
    (7..=22).contains(&hour_ending)
}

fn walked() -> Vec<Month> {
    let (mut weekday, mut moved) = (MONDAY, false);
    let mut months = Vec::new();
    for (year, month) in (START..=LAST).flat_map(|year| (1..=12).map(move |month| (year, month))) {
        let mut weekdays = Vec::new();
        for _ in 0..length(year, month) {
            weekdays.push(weekday);
            weekday = if weekday == SUNDAY { MONDAY } else { weekday + 1 };
        }
        let holiday = holiday(month, &weekdays);
        let on_peak = on_peak_days(&weekdays, holiday, &mut moved);
        let hours = on_peak.iter().flat_map(|&day| (1..=24).filter(move |&hour| day && peak(hour))).count() as i128;
        months.push(Month { year, month, weekdays, holiday, on_peak, hours });
    }
    months
}

/// Every month of the walk, which ends where the years of the paper do.
pub fn walk() -> &'static [Month] {
    static MONTHS: OnceLock<Vec<Month>> = OnceLock::new();
    MONTHS.get_or_init(walked)
}

/// The 336 months of the paper.
pub fn months() -> &'static [Month] {
    &walk()[12 * (FIRST - START) as usize..]
}

/// The month's place among those of the paper, or 19.
pub fn place(year: u64, month: u64) -> Answer<usize> {
    months().binary_search_by_key(&(year, month), |own| (own.year, own.month)).map_err(|_| NO_SUCH_DATE)
}

/// The month's place where it has the day, or 19.
fn dated((year, month, day): Date) -> Answer<usize> {
    let at = place(year, month)?;
    if (1..=months()[at].weekdays.len() as u64).contains(&day) {
        Ok(at)
    } else {
        Err(NO_SUCH_DATE)
    }
}

pub fn month_hours(year: u64, month: u64) -> Answer<i128> {
    place(year, month).map(|at| months()[at].hours)
}

/// 1 on-peak, 0 off-peak. Hours ending are 1 to 24, and 25 is the hour that comes twice where the clock is set back: none of 7 to 22.
pub fn hour_period(date: Date, hour_ending: u64) -> Answer<i128> {
    let at = dated(date)?;
    if !(1..=25).contains(&hour_ending) {
        return Err(NO_SUCH_DATE);
    }
    Ok((months()[at].on_peak[date.2 as usize - 1] && peak(hour_ending)).into())
}

pub fn weekday(date: Date) -> Answer<i128> {
    dated(date).map(|at| months()[at].weekdays[date.2 as usize - 1].into())
}

/// The next month's day of that number, or its last; 19 for a date that is none, then for a month that is none of the paper's.
pub fn month_later(date: Date) -> Answer<Date> {
    let next = months().get(dated(date)? + 1).ok_or(NO_SUCH_DATE)?;
    Ok((next.year, next.month, date.2.min(next.weekdays.len() as u64)))
}
