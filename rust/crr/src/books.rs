//! Books: their files, what is made from them, and the test.

use crate::grids::Grid;
use crate::lent;
use crate::refused::{answered, written, Refused};
use crate::sizes::{MAX_BOOK_BYTES, MAX_CONTRACTS, MAX_HOLDER_VIEW_BYTES};
use crate::terms::{Contract, Form, Period, Process};

/// A book: its contracts, in their order.
#[derive(Clone, Debug, PartialEq, Eq)]
pub struct Book {
    /// The form of its file.
    pub form: Form,
    /// Up to 1,000.
    pub contracts: Vec<Contract>,
}

impl Book {
    /// Reads a book's file, of either form, for a grid of so many nodes.
    pub fn read(nodes: usize, file: &[u8]) -> Result<Book, Refused> {
        let (mut rows, mut contracts, mut form) = (vec![0; 6 * MAX_CONTRACTS], 0, 0);
        answered(|| lent::read_book(nodes, file, &mut rows, &mut contracts, &mut form))?;
        let contracts = rows.chunks(6).take(contracts).map(Contract::from_row).collect();
        Ok(Book { form: Form::told(form), contracts })
    }

    /// Its file, in its form, for a grid of so many nodes.
    pub fn write(&self, nodes: usize) -> Result<Vec<u8>, Refused> {
        let rows: Vec<u64> = self.contracts.iter().flat_map(|contract| contract.row()).collect();
        written(MAX_BOOK_BYTES, |file, bytes| lent::write_book(self.form as u64, nodes, self.contracts.len(), &rows, file, bytes))
    }
}

/// How many contracts a book's file has.
pub fn count_contracts(nodes: usize, book: &[u8]) -> Result<usize, Refused> {
    let (mut rows, mut contracts, mut form) = ([0; 6 * MAX_CONTRACTS], 0, 0);
    answered(|| lent::read_book(nodes, book, &mut rows, &mut contracts, &mut form))?;
    Ok(contracts)
}

/// The book's file with contracts moved from old nodes to new ones, pair after pair.
pub fn remap_book(nodes: usize, book: &[u8], pairs: &[(u64, u64)]) -> Result<Vec<u8>, Refused> {
    let (old, new): (Vec<u64>, Vec<u64>) = pairs.iter().copied().unzip();
    written(MAX_BOOK_BYTES, |file, bytes| lent::remap_book(nodes, book, &old, &new, file, bytes))
}

/// The book's file as the market sees it: holder 0 in each contract.
pub fn write_market_view(nodes: usize, book: &[u8]) -> Result<Vec<u8>, Refused> {
    written(MAX_BOOK_BYTES, |file, bytes| lent::write_market_view(nodes, book, file, bytes))
}

/// What one holder sees of a book: each of its contracts, behind the contract's number in two bytes.
pub fn write_holder_view(nodes: usize, book: &[u8], holder: u64) -> Result<Vec<u8>, Refused> {
    written(MAX_HOLDER_VIEW_BYTES, |view, bytes| lent::write_holder_view(nodes, book, holder, view, bytes))
}

/// The canonical form of a book's file, which all its copies have in common.
pub fn write_canonical_book(nodes: usize, book: &[u8]) -> Result<Vec<u8>, Refused> {
    written(MAX_BOOK_BYTES, |file, bytes| lent::write_canonical_book(nodes, book, file, bytes))
}

/// What the simultaneous feasibility test finds.
#[derive(Clone, Copy, Debug, PartialEq, Eq)]
pub enum Verdict {
    /// No flow exceeds its released limit.
    Pass,
    /// Some flow does.
    Fail {
        /// The overloaded constraints: bit k is constraint k.
        set: u64,
        /// How many they are.
        count: usize,
        /// The lowest of them.
        lowest: usize,
        /// By how much its flow exceeds its released limit, in 10^-8 MW.
        excess: i64,
    },
}

impl Verdict {
    /// The verdict by the library's figures, all 0 on a pass.
    pub(crate) fn told(set: u64, count: usize, lowest: usize, excess: i64) -> Verdict {
        if set == 0 {
            Verdict::Pass
        } else {
            Verdict::Fail { set, count, lowest, excess }
        }
    }
}

/// Tests the contracts of one period, of a book's file, on a grid in a process.
pub fn test_book(grid: &Grid, process: Process, period: Period, book: &[u8]) -> Result<Verdict, Refused> {
    let Grid { nodes, constraints, limits, factors, .. } = grid;
    let (mut set, mut count, mut lowest, mut excess) = (0, 0, 0, 0);
    answered(|| {
        let (process, period) = (process as u64, period as u64);
        lent::test_book(*nodes, *constraints, process, period, limits, factors, book, &mut set, &mut count, &mut lowest, &mut excess)
    })?;
    Ok(Verdict::told(set, count, lowest, excess))
}

/// The flows of a period's contracts.
#[derive(Clone, Debug, PartialEq, Eq)]
pub struct Flows {
    /// That of each constraint, in 10^-8 MW.
    pub flows: Vec<i64>,
    /// How many contracts the period has.
    pub counted: usize,
}

/// Finds the flow on each constraint of the contracts of one period, of a book's file, as the test counts them.
pub fn find_flows(grid: &Grid, period: Period, book: &[u8]) -> Result<Flows, Refused> {
    let Grid { nodes, constraints, limits, factors, .. } = grid;
    let (mut flows, mut counted) = (vec![0; *constraints], 0);
    answered(|| lent::find_flows(*nodes, *constraints, period as u64, limits, factors, book, &mut flows, &mut counted))?;
    Ok(Flows { flows, counted })
}

/// A contract whose quantity, lowered alone, lets the book pass.
#[derive(Clone, Copy, Debug, PartialEq, Eq)]
pub struct Cut {
    /// Its number in the book.
    pub contract: u64,
    /// The smallest cut that does, in thousandths of a MW.
    pub cut: u64,
}

/// Finds each contract of the period tested whose cut alone clears the book, by rising cuts. A book that passes has none, and neither
/// has one that no single cut clears.
pub fn find_cuts(grid: &Grid, process: Process, period: Period, book: &[u8]) -> Result<Vec<Cut>, Refused> {
    let Grid { nodes, constraints, limits, factors, .. } = grid;
    let (mut numbers, mut cuts, mut listed) = ([0; MAX_CONTRACTS], [0; MAX_CONTRACTS], 0);
    answered(|| {
        let (process, period) = (process as u64, period as u64);
        lent::find_cuts(*nodes, *constraints, process, period, limits, factors, book, &mut numbers, &mut cuts, &mut listed)
    })?;
    Ok(numbers.iter().zip(&cuts).take(listed).map(|(&contract, &cut)| Cut { contract, cut }).collect())
}
