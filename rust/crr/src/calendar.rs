//! The calendar, from 2010 to 2037.

use crate::lent;
use crate::refused::{answered, Refused};
use crate::terms::Period;

/// The on-peak hours of a month.
pub fn month_hours(year: u64, month: u64) -> Result<u64, Refused> {
    let mut hours = 0;
    answered(|| lent::month_hours(year, month, &mut hours))?;
    Ok(hours)
}

/// The period of an hour, by the on-peak rule. Hours ending are 1 to 24, and 25 for the hour that comes twice on the day whose clock is set back.
pub fn hour_period(year: u64, month: u64, day: u64, hour_ending: u64) -> Result<Period, Refused> {
    let mut period = 0;
    answered(|| lent::hour_period(year, month, day, hour_ending, &mut period))?;
    Ok(Period::told(period))
}

/// The weekday of a date: 1 is Monday, 7 is Sunday.
pub fn weekday(year: u64, month: u64, day: u64) -> Result<u64, Refused> {
    let mut weekday = 0;
    answered(|| lent::weekday(year, month, day, &mut weekday))?;
    Ok(weekday)
}

/// The date one month later, as year, month and day.
pub fn month_later(year: u64, month: u64, day: u64) -> Result<(u64, u64, u64), Refused> {
    let mut later = (0, 0, 0);
    answered(|| lent::month_later(year, month, day, &mut later.0, &mut later.1, &mut later.2))?;
    Ok(later)
}
