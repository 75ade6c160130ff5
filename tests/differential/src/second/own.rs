//! What no function of crr.h tells, asked of the second implementation itself: its walk through the calendar, and paper 5's square of net transfers.

use super::calendar::{months, walk, Date, Month, SATURDAY, SUNDAY};
use super::migration::{net, Row, Square};

/// All 336 counts, and the bytes of their lines.
fn table() -> Vec<bool> {
    let counts: Vec<i128> = months().iter().map(|month| month.hours).collect();
    let count = |hours: i128| counts.iter().filter(|own| **own == hours).count();
    vec![
        counts.len() == 336,
        [count(384), count(400), count(416), count(432)] == [38, 110, 140, 48],
        counts.iter().sum::<i128>() == 137_568,
        counts.iter().map(|hours| format!("{hours}\n").len()).sum::<usize>() == 1_344,
        months().iter().map(|month| month.weekdays.len()).sum::<usize>() == 10_227,
    ]
}

/// The years in which the month's holiday falls on the weekday.
fn years(month: u64, on: u64) -> Vec<u64> {
    let falls = |own: &Month| own.holiday.is_some_and(|day| own.weekdays[day as usize - 1] == on);
    months().iter().filter(|own| own.month == month && falls(own)).map(|own| own.year).collect()
}

/// 001's exhibit A-1, 1 February 2008 to 31 January 2009; the years in which a fixed holiday is a Saturday or a Sunday.
fn holidays() -> Vec<bool> {
    let within = |own: &&Month| ((2008, 2)..=(2009, 1)).contains(&(own.year, own.month));
    let exhibit: Vec<Date> = walk().iter().filter(within).filter_map(|own| Some((own.year, own.month, own.holiday?))).collect();
    vec![
        exhibit == [(2008, 5, 26), (2008, 7, 4), (2008, 9, 1), (2008, 11, 27), (2008, 12, 25), (2009, 1, 1)],
        years(1, SATURDAY) == [2011, 2022, 2028, 2033],
        years(7, SATURDAY) == [2015, 2020, 2026, 2037],
        years(12, SATURDAY) == [2010, 2021, 2027, 2032],
        years(1, SUNDAY) == [2012, 2017, 2023, 2034],
        years(7, SUNDAY) == [2010, 2021, 2027, 2032],
        years(12, SUNDAY) == [2011, 2016, 2022, 2033],
    ]
}

/// 001's nine rows: customers, thousandths of a MW per customer, old and new LSE.
fn square() -> Vec<bool> {
    let rows: Vec<Row> = [
        (200, 5, 1, 2),
        (600, 5, 1, 3),
        (500, 10, 2, 4),
        (450, 10, 4, 3),
        (5, 200, 1, 2),
        (35, 200, 2, 3),
        (5, 800, 3, 1),
        (4, 850, 3, 2),
        (1, 8000, 1, 3),
    ]
    .map(|(customers, rate, old, new)| Row { customers, rate, old, new })
    .to_vec();
    let nets: Vec<i128> = (1..=4).flat_map(|from| (1..=4).map(move |to| (from, to))).map(|(from, to)| net(&rows, from, to)).collect();
    let square = Square::new(&rows, 4);
    vec![
        nets == [0, 2000, 7000, 0, -2000, 0, 3600, 5000, -7000, -3600, 0, -4500, 0, -5000, 4500, 0],
        square.gains(2) == [(3, 3600), (4, 5000)] && square.losses(1) == 9000 && square.losses(3) == 0,
    ]
}

/// Prints how many hold; how many do not.
pub fn check() -> usize {
    let all = [table(), holidays(), square()].concat();
    let wrong = all.iter().filter(|holds| !**holds).count();
    println!("second implementation by itself: {} hold, {wrong} do not", all.len() - wrong);
    wrong
}
