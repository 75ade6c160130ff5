//! Demand 3 by experiment: a book that passes has no shortfall at any price list drawn, and the excess of one that fails is the shortfall of the one-cent list.

use super::shortfall;
use super::test::Tables;
use crate::draw::{self, Draw, Size};
use crate::library;
use crate::second::book::{self, Contract};
use crate::second::grid::Grid;
use crate::second::test::{of_period, rent, shortfall as second};
use crate::second::{first, Answer, Form};

const PRICE_LISTS: u64 = 12;

#[derive(Default)]
pub struct Counts {
    pub passing: u64,
    pub failing: u64,
    pub lists: u64,
    pub wrong: u64,
}

struct Case {
    grid: Grid,
    form: Form,
    book: Vec<Contract>,
    process: u64,
    period: u64,
}

impl Case {
    fn new(draw: &mut Draw) -> Self {
        let nodes = if draw.once_in(20) { draw.within(201, 400) } else { draw.within(1, 6) };
        let size = Size { nodes, constraints: draw.within(1, 3), contracts: draw.within(0, 6) };
        let form = draw.form();
        let (mut grid, book) = (draw::grid(draw, size), draw::book(draw, size, form));
        if draw.once_in(2) {
            grid.limits.iter_mut().for_each(|limit| *limit /= 50);
        }
        Case { grid, form, book, process: draw.below(3), period: draw.below(2) }
    }

    fn factors(&self) -> Vec<i64> {
        self.grid.factor_cells().iter().map(|&factor| factor as i64).collect()
    }

    /// The proved test's answer: the lowest overloaded constraint and the excess there, or nothing. No case is to be refused.
    fn tested(&self) -> Answer<Option<(usize, i128)>> {
        let limits: Vec<u64> = self.grid.limits.iter().map(|&limit| limit as u64).collect();
        let (factors, file) = (self.factors(), book::file_of(self.form, &self.book));
        let (nodes, constraints, process, period) = (self.grid.nodes as usize, limits.len(), self.process, self.period);
        let (mut set, mut count, mut lowest, mut excess) = (0, 0, 0, 0);
        let lent = (&mut set, &mut count, &mut lowest, &mut excess);
        let answer = library::test_book(nodes, constraints, process, period, &limits, &factors, &file, lent.0, lent.1, lent.2, lent.3);
        first(&[(answer != 0, answer)])?;
        Ok((set != 0).then_some((lowest, i128::from(excess))))
    }

    /// The shortfall at a price list, with the net payment as the proved settlement gives it.
    fn settled_shortfall(&self, prices: &[i128]) -> Answer<i128> {
        let cells: Vec<u64> = prices.iter().map(|&price| price as u64).collect();
        let (factors, file) = (self.factors(), book::file_of(self.form, &self.book));
        let (nodes, constraints) = (self.grid.nodes as usize, cells.len());
        let (mut cents, mut priced) = (vec![0; self.book.len()], vec![0; self.book.len()]);
        let (mut sum, mut whole, mut parts) = (0, 0, 0);
        let own = (&mut cents, &mut priced);
        let lent = (&mut sum, &mut whole, &mut parts);
        let answer = library::settle_hour(nodes, constraints, self.period, &factors, &cells, &file, own.0, own.1, lent.0, lent.1, lent.2);
        first(&[(answer != 0, answer)])?;
        Ok(i128::from(whole) * 100_000_000 + i128::from(parts) - rent(&self.grid, self.process, prices))
    }

    /// The shortfall at a price list as the proved entry gives it.
    fn found_shortfall(&self, prices: &[i128]) -> Answer<i128> {
        let limits: Vec<u64> = self.grid.limits.iter().map(|&limit| limit as u64).collect();
        let (factors, book) = (self.factors(), book::file_of(self.form, &self.book));
        let (nodes, constraints, process, period) = (self.grid.nodes as usize, limits.len(), self.process, self.period);
        shortfall::proved(&Tables { nodes, constraints, process, period, limits, factors, book }, prices)
    }

    /// Whether all ways to the shortfall agree and it is as `fits` says.
    fn holds(&self, prices: &[i128], fits: impl Fn(i128) -> bool) -> bool {
        let own = second(&self.grid, self.process, &of_period(&self.book, self.period), prices);
        [self.settled_shortfall(prices), self.found_shortfall(prices)] == [Ok(own); 2] && fits(own)
    }
}

/// No shortfall above 0 at price lists drawn, at the highest and, there exactly 0, at the lowest.
fn passing_holds(draw: &mut Draw, case: &Case) -> bool {
    let constraints = case.grid.limits.len();
    let mut lists: Vec<Vec<i128>> = (0..PRICE_LISTS).map(|_| draw::prices(draw, constraints as i128)).collect();
    lists.push(vec![500_000; constraints]);
    let none = vec![0; constraints];
    case.holds(&none, |shortfall| shortfall == 0) && lists.iter().all(|list| case.holds(list, |shortfall| shortfall <= 0))
}

/// The excess, above 0, is the shortfall of the list with one cent there.
fn failing_holds(case: &Case, lowest: usize, excess: i128) -> bool {
    let one_cent: Vec<i128> = (0..case.grid.limits.len()).map(|k| i128::from(k == lowest)).collect();
    excess > 0 && case.holds(&one_cent, |shortfall| shortfall == excess)
}

/// Tests one case, and counts.
pub fn case(draw: &mut Draw, counts: &mut Counts) {
    let case = Case::new(draw);
    let holds = match case.tested() {
        Err(_) => false,
        Ok(None) => {
            counts.passing += 1;
            counts.lists += PRICE_LISTS + 2;
            passing_holds(draw, &case)
        }
        Ok(Some((lowest, excess))) => {
            counts.failing += 1;
            counts.lists += 1;
            failing_holds(&case, lowest, excess)
        }
    };
    counts.wrong += u64::from(!holds);
}
