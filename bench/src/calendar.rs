//! The entries of the calendar, proved and plain: compared on every date of its years, then timed on dates drawn at random.

use crate::entries::agree;
use crate::library;
use crate::plain;
use crate::splitmix::Draw;
use crate::timing::{side_by_side, Times};
use std::hint::black_box;

/// Calls that are timed as one.
pub const CALLS: usize = 1000;

type Date = (u64, u64, u64);

pub const ENTRIES: [(&str, fn() -> Result<Times, String>); 4] =
    [("month_hours", month_hours), ("hour_period", hour_period), ("weekday", weekday), ("month_later", month_later)];

/// Every date of the years and the numbers beside them, existing and not.
fn every() -> impl Iterator<Item = Date> {
    (2009..=2038).flat_map(|year| (0..=13).flat_map(move |month| (0..=32).map(move |day| (year, month, day))))
}

/// Existing dates.
fn drawn() -> Vec<Date> {
    let mut draw = Draw::new(2013);
    (0..CALLS).map(|_| (2010 + draw.below(28), 1 + draw.below(12), 1 + draw.below(28))).collect()
}

fn month_hours() -> Result<Times, String> {
    for (year, month, _) in every().filter(|date| date.2 == 0) {
        let mut hours = 0;
        let proved = library::month_hours(year, month, &mut hours);
        agree(&if proved == 0 { Ok(hours) } else { Err(proved) }, &plain::month_hours(year, month))?;
    }
    let (dates, mut hours) = (drawn(), 0);
    Ok(side_by_side(
        &mut || {
            for &(year, month, _) in &dates {
                black_box(library::month_hours(year, month, &mut hours));
                black_box(&hours);
            }
        },
        &mut || {
            for &(year, month, _) in &dates {
                let _ = black_box(&plain::month_hours(year, month));
            }
        },
    ))
}

/// Compared at the hours where something changes; timed at an hour of 1 to 24 that the day's number gives.
fn hour_period() -> Result<Times, String> {
    for (year, month, day) in every() {
        for hour in [0, 1, 6, 7, 22, 23, 24, 25, 26] {
            let mut period = 0;
            let proved = library::hour_period(year, month, day, hour, &mut period);
            agree(&if proved == 0 { Ok(period) } else { Err(proved) }, &plain::hour_period(year, month, day, hour))?;
        }
    }
    let (dates, mut period) = (drawn(), 0);
    Ok(side_by_side(
        &mut || {
            for &(year, month, day) in &dates {
                black_box(library::hour_period(year, month, day, 1 + day % 24, &mut period));
                black_box(&period);
            }
        },
        &mut || {
            for &(year, month, day) in &dates {
                let _ = black_box(&plain::hour_period(year, month, day, 1 + day % 24));
            }
        },
    ))
}

fn weekday() -> Result<Times, String> {
    for (year, month, day) in every() {
        let mut weekday = 0;
        let proved = library::weekday(year, month, day, &mut weekday);
        agree(&if proved == 0 { Ok(weekday) } else { Err(proved) }, &plain::weekday(year, month, day))?;
    }
    let (dates, mut weekday) = (drawn(), 0);
    Ok(side_by_side(
        &mut || {
            for &(year, month, day) in &dates {
                black_box(library::weekday(year, month, day, &mut weekday));
                black_box(&weekday);
            }
        },
        &mut || {
            for &(year, month, day) in &dates {
                let _ = black_box(&plain::weekday(year, month, day));
            }
        },
    ))
}

fn month_later() -> Result<Times, String> {
    let proved = |(year, month, day): Date, later: &mut [u64; 3]| {
        let [later_year, later_month, later_day] = later;
        library::month_later(year, month, day, later_year, later_month, later_day)
    };
    for date in every() {
        let mut later = [0; 3];
        let number = proved(date, &mut later);
        agree(&if number == 0 { Ok(later) } else { Err(number) }, &plain::month_later(date.0, date.1, date.2))?;
    }
    let (dates, mut later) = (drawn(), [0; 3]);
    Ok(side_by_side(
        &mut || {
            for &date in &dates {
                black_box(proved(date, &mut later));
                black_box(&later);
            }
        },
        &mut || {
            for &(year, month, day) in &dates {
                let _ = black_box(&plain::month_later(year, month, day));
            }
        },
    ))
}
