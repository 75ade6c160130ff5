//! The least cuts that clear a failing book (paper 12), found in two ways: by trying one cut after another on the book as it then is, and, where
//! quantities are large, by halving at each constraint.

use super::book::{parse, Contract};
use super::grid::Grid;
use super::test::{checked, flow, of_period, overloaded, released, Asked};
use super::{first, Answer};

/// A contract's number in the book, contracts of both periods counted, and by how much its quantity is lowered.
#[derive(Clone, Copy, Debug, PartialEq, Eq)]
pub struct Row {
    pub number: i128,
    pub cut: i128,
}

/// The cuts from a least to a greatest.
#[derive(Clone, Copy)]
struct Range {
    least: i128,
    greatest: i128,
}

/// A book that no check refuses, as it is tested.
pub struct Tested {
    pub grid: Grid,
    pub process: u64,
    pub period: u64,
    pub book: Vec<Contract>,
}

impl Tested {
    /// The checks are the test's.
    pub fn new(asked: &Asked) -> Answer<Self> {
        let (grid, _) = checked(asked)?;
        let (_, book) = parse(grid.nodes, asked.book)?;
        Ok(Tested { grid, process: asked.process, period: asked.period, book })
    }

    /// The constraints that a book overloads in the period.
    fn overloads(&self, book: &[Contract]) -> Vec<usize> {
        overloaded(&self.grid, self.process, &of_period(book, self.period))
    }

    pub fn over(&self) -> Vec<usize> {
        self.overloads(&self.book)
    }

    pub fn is_of_period(&self, number: usize) -> bool {
        self.book[number].period == i128::from(self.period)
    }

    /// What is over when one contract's quantity is lowered and all else is as it was. Quantity 0 means that the contract is taken out.
    pub fn over_after(&self, number: usize, cut: i128) -> Vec<usize> {
        let mut book = self.book.clone();
        book[number].quantity -= cut;
        book.retain(|contract| contract.quantity > 0);
        self.overloads(&book)
    }

    pub fn clears(&self, number: usize, cut: i128) -> bool {
        self.over_after(number, cut).is_empty()
    }

    /// The rows of a failing book, by cut and then by number; none of a book that passes.
    fn rows(&self, least: impl Fn(usize) -> Option<i128>) -> Vec<Row> {
        if self.over().is_empty() {
            return Vec::new();
        }
        let own = (0..self.book.len()).filter(|&number| self.is_of_period(number));
        let mut rows: Vec<Row> = own.filter_map(|number| Some(Row { number: number as i128, cut: least(number)? })).collect();
        rows.sort_by_key(|row| (row.cut, row.number));
        rows
    }

    /// One cut after another, up to the whole quantity.
    pub fn by_trying(&self) -> Vec<Row> {
        self.rows(|number| (1..=self.book[number].quantity).find(|&cut| self.clears(number, cut)))
    }

    /// What a cut of a contract leaves within the limit of a constraint, given the flow of the others there. The flow falls or rises with the cut, so
    /// that at most once it comes within the limit or leaves it.
    fn within(&self, contract: &Contract, others: i128, constraint: usize) -> Option<Range> {
        let factor = |node: i128| self.grid.factors[node as usize][constraint];
        let spread = factor(contract.source) - factor(contract.sink);
        let most = released(&self.grid, self.process, constraint) - others;
        let fits = |cut: i128| contract.counted(spread * (contract.quantity - cut)) <= most;
        let whole = contract.quantity;
        match (fits(0), fits(whole)) {
            (true, true) => Some(Range { least: 0, greatest: whole }),
            (true, false) => Some(Range { least: 0, greatest: last_as_at_0(whole, fits) }),
            (false, true) => Some(Range { least: last_as_at_0(whole, fits) + 1, greatest: whole }),
            (false, false) => None,
        }
    }

    /// The least cut of a contract that leaves each of some constraints within its limit. `flows` has those of the whole book.
    pub fn least(&self, number: usize, constraints: &[usize], flows: &[i128]) -> Option<i128> {
        let contract = &self.book[number];
        let alone = |k: usize| flow(&self.grid, &[*contract], k);
        let ranges = constraints.iter().map(|&k| self.within(contract, flows[k] - alone(k), k)).collect::<Option<Vec<Range>>>()?;
        let least = ranges.iter().map(|range| range.least).max().unwrap_or(0);
        ranges.iter().all(|range| least <= range.greatest).then_some(least)
    }

    pub fn flows(&self) -> Vec<i128> {
        let contracts = of_period(&self.book, self.period);
        (0..self.grid.limits.len()).map(|k| flow(&self.grid, &contracts, k)).collect()
    }

    pub fn by_halving(&self) -> Vec<Row> {
        let (flows, all) = (self.flows(), (0..self.grid.limits.len()).collect::<Vec<usize>>());
        self.rows(|number| self.least(number, &all, &flows))
    }
}

/// The last cut at which it is as it is at 0; at the whole quantity it is otherwise.
fn last_as_at_0(whole: i128, fits: impl Fn(i128) -> bool) -> i128 {
    let (mut same, mut other) = (0, whole);
    while other - same > 1 {
        let middle = (same + other) / 2;
        if fits(middle) == fits(0) {
            same = middle;
        } else {
            other = middle;
        }
    }
    same
}

/// The rows in two places of so many cells: the last 9 where one has fewer than there are rows.
pub fn placed(rows: &Answer<Vec<Row>>, numbers: usize, cuts: usize) -> Answer<Vec<Row>> {
    let rows = rows.clone()?;
    first(&[(numbers < rows.len(), 9), (cuts < rows.len(), 9)])?;
    Ok(rows)
}
