//! Paper 5, load migration: net transfers by pairs of LSEs, and a fraction of each base contract for each gainer.

use super::book::{file_of, parse, Contract};
use super::{first, nodes_fail, Answer};
use crate::library::Migration;

/// Customers moved, thousandths of a MW for each, and the LSEs, numbered from 1. The class has no effect.
#[derive(Clone, Copy)]
pub struct Row {
    pub customers: i128,
    pub rate: i128,
    pub old: i128,
    pub new: i128,
}

impl Row {
    /// The load that the row moves from one LSE to another.
    fn moved(&self, from: i128, to: i128) -> i128 {
        if (self.old, self.new) == (from, to) {
            self.customers * self.rate
        } else {
            0
        }
    }
}

/// Lost load is positive, so that each net is the opposite of its mirror.
pub fn net(rows: &[Row], from: i128, to: i128) -> i128 {
    rows.iter().map(|row| row.moved(from, to) - row.moved(to, from)).sum()
}

/// The net from each LSE to each: of LSE i to LSE j in line i - 1, place j - 1.
pub struct Square(Vec<Vec<i128>>);

impl Square {
    pub fn new(rows: &[Row], lses: i128) -> Self {
        Square((1..=lses).map(|from| (1..=lses).map(|to| net(rows, from, to)).collect()).collect())
    }

    pub fn lses(&self) -> i128 {
        self.0.len() as i128
    }

    pub fn between(&self, from: i128, to: i128) -> i128 {
        self.0[from as usize - 1][to as usize - 1]
    }

    /// The gainers of an LSE by number, and what each gains from it.
    pub fn gains(&self, loser: i128) -> Vec<(i128, i128)> {
        let line = &self.0[loser as usize - 1];
        (1..).zip(line).filter(|(_, &net)| net > 0).map(|(gainer, &net)| (gainer, net)).collect()
    }

    /// The losses of an LSE to all gainers.
    pub fn losses(&self, loser: i128) -> i128 {
        self.gains(loser).iter().map(|(_, net)| net).sum()
    }
}

/// The whole number at or below a fraction that is not negative.
fn rounded_down(over: i128, under: i128) -> i128 {
    over.div_euclid(under)
}

/// Whether a contract of the book is a base contract: an obligation of the period, held by an LSE.
pub fn migrates(contract: &Contract, period: i128, lses: i128) -> bool {
    contract.kind == 0 && contract.period == period && (1..=lses).contains(&contract.holder)
}

/// What a base contract gives: for each gainer its own contract, then the loser's with source and sink exchanged.
pub fn given(base: &Contract, square: &Square, loads: &[i128]) -> Vec<Contract> {
    let mut made = Vec::new();
    for (gainer, net) in square.gains(base.holder) {
        let quantity = rounded_down(base.quantity * net, loads[base.holder as usize - 1]);
        if quantity > 0 {
            made.push(Contract { holder: gainer, quantity, ..*base });
            made.push(Contract { source: base.sink, sink: base.source, quantity, ..*base });
        }
    }
    made
}

/// 22 by so many LSEs and the rows: a figure, count or LSE number outside its range, unequal lists, or a row whose old and new LSE are one.
fn rows_fail(lists: &Migration, lses: u64) -> bool {
    let Migration { classes, customers, rates, olds, news, loads: _ } = lists;
    let rows = classes.len();
    let unequal = [customers, rates, olds, news].iter().any(|list| list.len() != rows);
    let no_lse = |number: &u64| *number < 1 || *number > lses;
    unequal
        || rows > 1000
        || !(1..=16).contains(&lses)
        || customers.iter().any(|&customers| customers > 1_000_000)
        || rates.iter().any(|&rate| rate > 10_000)
        || olds.iter().chain(news).any(no_lse)
        || olds.iter().zip(news).any(|(old, new)| old == new)
}

/// 22 by a load for each LSE too.
fn range_fails(lists: &Migration) -> bool {
    rows_fail(lists, lists.loads.len() as u64) || lists.loads.iter().any(|&load| load > 1_000_000_000_000)
}

/// The rows of lists of equal length.
pub fn rows_of(lists: &Migration) -> Vec<Row> {
    let row = |at: usize| {
        let [customers, rate, old, new] = [&lists.customers, &lists.rates, &lists.olds, &lists.news].map(|list| i128::from(list[at]));
        Row { customers, rate, old, new }
    };
    (0..lists.customers.len()).map(row).collect()
}

pub fn loads_of(lists: &Migration) -> Vec<i128> {
    lists.loads.iter().map(|&load| i128::from(load)).collect()
}

/// 23: a loser whose load is 0 or less than its losses to all gainers.
pub fn load_fails(square: &Square, loads: &[i128], lse: i128) -> bool {
    let (losses, load) = (square.losses(lse), loads[lse as usize - 1]);
    losses > 0 && (load == 0 || load < losses)
}

/// The new contracts of a book whose lists are in range, none where 23 is drawn.
pub fn migrated(book: &[Contract], period: i128, lists: &Migration) -> Answer<Vec<Contract>> {
    let (rows, loads) = (rows_of(lists), loads_of(lists));
    let square = Square::new(&rows, loads.len() as i128);
    first(&[((1..=square.lses()).any(|lse| load_fails(&square, &loads, lse)), 23)])?;
    let base = book.iter().filter(|contract| migrates(contract, period, square.lses()));
    Ok(base.flat_map(|contract| given(contract, &square, &loads)).collect())
}

/// 17, 2, the book's own checks, 22, 23, then 10 for a book that grows too long, and 9.
pub fn migrate(nodes: usize, period: u64, file: &[u8], lists: &Migration, room: usize) -> Answer<Vec<u8>> {
    first(&[(period > 1, 17), (nodes_fail(nodes as i128), 2)])?;
    let (form, book) = parse(nodes as i128, file)?;
    first(&[(range_fails(lists), 22)])?;
    let new = [&book[..], &migrated(&book, period.into(), lists)?].concat();
    first(&[(new.len() > 1000, 10)])?;
    let file = file_of(form, &new);
    first(&[(room < file.len(), 9)])?;
    Ok(file)
}

/// The square by itself, a line for each loser, one behind the other: 22 by the LSEs and the rows, then 9.
pub fn net_transfers(lses: usize, lists: &Migration, room: usize) -> Answer<Vec<i128>> {
    first(&[(rows_fail(lists, lses as u64), 22)])?;
    first(&[(room < lses * lses, 9)])?;
    Ok(Square::new(&rows_of(lists), lses as i128).0.concat())
}
