use super::*;

const FIRST_YEAR: u64 = 2010;
const YEARS: u64 = 28;

/// Days of each month, and of those before it, in a year of 365 days.
const DAYS: [u32; 12] = [31, 28, 31, 30, 31, 30, 31, 31, 30, 31, 30, 31];
const BEFORE: [u32; 12] = [0, 31, 59, 90, 120, 151, 181, 212, 243, 273, 304, 334];

/// An existing month: years after 2010 and months after January.
#[derive(Clone, Copy)]
struct Month {
    years: u32,
    months: u32,
}

impl Month {
    fn new(year: u64, month: u64) -> Result<Self, Refusal> {
        let (years, months) = (year.wrapping_sub(FIRST_YEAR), month.wrapping_sub(1));
        demand(years < YEARS && months < 12, NO_SUCH_DATE)?;
        Ok(Month { years: years as u32, months: months as u32 })
    }

    /// No year divisible by 100 is among these.
    const fn leap(self) -> bool {
        self.years % 4 == 2
    }

    const fn days(self) -> u32 {
        DAYS[self.months as usize] + (self.months == 1 && self.leap()) as u32
    }

    /// From 0, Monday. 1 January 2010 is a Friday; a year of 365 days moves it by one, a leap year before by one more.
    const fn weekday(self, day: u32) -> u32 {
        let leap_day = (self.months > 1 && self.leap()) as u32;
        (self.years + (self.years + 1) / 4 + BEFORE[self.months as usize] + leap_day + day + 3) % 7
    }

    /// The day without on-peak hours that is no Sunday, where the month has one; else 0.
    const fn holiday(self) -> u32 {
        match self.months {
            0 => 1 + (self.weekday(1) == 6) as u32,
            4 => 31 - self.weekday(31),
            6 => 4 + (self.weekday(4) == 6) as u32,
            8 => 1 + (7 - self.weekday(1)) % 7,
            10 => 22 + (10 - self.weekday(1)) % 7,
            11 => 25 + (self.weekday(25) == 6) as u32,
            _ => 0,
        }
    }

    const fn on_peak_hours(self) -> u16 {
        let (mut day, mut count) = (1, 0);
        while day <= self.days() {
            count += (self.weekday(day) != 6 && day != self.holiday()) as u16;
            day += 1;
        }
        16 * count
    }
}

/// Worked out when this is compiled.
static HOURS: [u16; 336] = {
    let (mut hours, mut at) = ([0; 336], 0);
    while at < 336 {
        hours[at as usize] = Month { years: at / 12, months: at % 12 }.on_peak_hours();
        at += 1;
    }
    hours
};

#[inline(never)]
pub fn month_hours(year: u64, month: u64) -> Result<u64, Refusal> {
    let Month { years, months } = Month::new(year, month)?;
    Ok(HOURS[(12 * years + months) as usize].into())
}

fn existing(year: u64, month: u64, day: u64) -> Result<(Month, u32), Refusal> {
    let month = Month::new(year, month)?;
    demand(day.wrapping_sub(1) < month.days().into(), NO_SUCH_DATE)?;
    Ok((month, day as u32))
}

#[inline(never)]
pub fn hour_period(year: u64, month: u64, day: u64, hour_ending: u64) -> Result<u64, Refusal> {
    let (month, day) = existing(year, month, day)?;
    demand(hour_ending.wrapping_sub(1) < 25, NO_SUCH_DATE)?;
    Ok(((7..=22).contains(&hour_ending) && month.weekday(day) != 6 && day != month.holiday()).into())
}

#[inline(never)]
pub fn weekday(year: u64, month: u64, day: u64) -> Result<u64, Refusal> {
    let (month, day) = existing(year, month, day)?;
    Ok(u64::from(month.weekday(day)) + 1)
}

#[inline(never)]
pub fn month_later(year: u64, month: u64, day: u64) -> Result<[u64; 3], Refusal> {
    existing(year, month, day)?;
    let (year, month) = if month == 12 { (year + 1, 1) } else { (year, month + 1) };
    let reached = Month::new(year, month)?;
    Ok([year, month, day.min(reached.days().into())])
}
