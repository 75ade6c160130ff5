//! Load migration.

use crate::lent;
use crate::refused::{answered, written, Refused};
use crate::sizes::{MAX_BOOK_BYTES, MAX_LSES};
use crate::terms::Period;

/// Customers that moved from one LSE to another.
#[derive(Clone, Copy, Debug, PartialEq, Eq)]
pub struct Moved {
    /// Their class, which changes nothing.
    pub class: u8,
    /// How many they are.
    pub customers: u64,
    /// The load of each, in thousandths of a MW.
    pub rate: u64,
    /// The LSE that they left.
    pub old: u64,
    /// The LSE that they joined.
    pub new: u64,
}

/// The rows as the lists that the library takes.
struct Lists {
    classes: Vec<u8>,
    customers: Vec<u64>,
    rates: Vec<u64>,
    olds: Vec<u64>,
    news: Vec<u64>,
}

impl Lists {
    fn of(rows: &[Moved]) -> Lists {
        let list = |of: fn(&Moved) -> u64| -> Vec<u64> { rows.iter().map(of).collect() };
        Lists {
            classes: rows.iter().map(|row| row.class).collect(),
            customers: list(|row| row.customers),
            rates: list(|row| row.rate),
            olds: list(|row| row.old),
            news: list(|row| row.new),
        }
    }

    fn with<'a>(&'a self, loads: &'a [u64]) -> lent::Migration<'a> {
        let Lists { classes, customers, rates, olds, news } = self;
        lent::Migration { classes, customers, rates, olds, news, loads }
    }
}

/// Migrates load, for one period: the book's file grown by the contracts that follow the customers. The load of LSE i is in cell i - 1.
pub fn migrate_load(nodes: usize, period: Period, book: &[u8], rows: &[Moved], loads: &[u64]) -> Result<Vec<u8>, Refused> {
    let lists = Lists::of(rows);
    written(MAX_BOOK_BYTES, |file, bytes| lent::migrate_load(nodes, period as u64, book, &lists.with(loads), file, bytes))
}

/// The net load that each of so many LSEs lost to each other, row by row of losers: losses above 0, gains below.
pub fn net_transfers(lses: usize, rows: &[Moved]) -> Result<Vec<i64>, Refused> {
    let mut nets = vec![0; lses.min(MAX_LSES).pow(2)];
    answered(|| lent::net_transfers(lses, &Lists::of(rows).with(&[]), &mut nets))?;
    Ok(nets)
}
