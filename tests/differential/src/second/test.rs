//! The simultaneous feasibility test, and demand 3's shortfall.

use super::book::{parse, Contract};
use super::grid::{by_node, Grid};
use super::settlement::{exact_total, mcc};
use super::{cells, constraints_fail, first, limit_fails, nodes_fail, set_of, Answer};

/// Percent by process: annual (001, revision 23), Tier LT, monthly.
pub const RELEASED: [i128; 3] = [65, 60, 100];

pub fn released(grid: &Grid, process: u64, constraint: usize) -> i128 {
    grid.limits[constraint] * RELEASED[process as usize] * 1000
}

pub fn of_period(book: &[Contract], period: u64) -> Vec<Contract> {
    book.iter().filter(|contract| contract.period == period as i128).copied().collect()
}

/// The sum of the contracts' flows on a constraint, each as it counts.
pub fn flow(grid: &Grid, contracts: &[Contract], constraint: usize) -> i128 {
    let factor = |node: i128| grid.factors[node as usize][constraint];
    contracts.iter().map(|c| c.counted((factor(c.source) - factor(c.sink)) * c.quantity)).sum()
}

pub fn excess(grid: &Grid, process: u64, contracts: &[Contract], constraint: usize) -> i128 {
    flow(grid, contracts, constraint) - released(grid, process, constraint)
}

/// The constraints whose flow exceeds the released limit.
pub fn overloaded(grid: &Grid, process: u64, contracts: &[Contract]) -> Vec<usize> {
    (0..grid.limits.len()).filter(|&k| excess(grid, process, contracts, k) > 0).collect()
}

/// The figures as they are lent: set, count, lowest, excess; all 0 on a pass.
pub fn figures(grid: &Grid, process: u64, contracts: &[Contract]) -> [i128; 4] {
    let over = overloaded(grid, process, contracts);
    match over.first() {
        None => [0; 4],
        Some(&lowest) => [set_of(&over), over.len() as i128, lowest as i128, excess(grid, process, contracts, lowest)],
    }
}

pub struct Asked<'a> {
    pub nodes: usize,
    pub constraints: usize,
    pub process: u64,
    pub period: u64,
    pub limits: &'a [u64],
    pub factors: &'a [i64],
    pub book: &'a [u8],
}

/// The grid and the period's contracts, where no check refuses.
pub fn checked(asked: &Asked) -> Answer<(Grid, Vec<Contract>)> {
    let (nodes, constraints) = (asked.nodes as i128, asked.constraints as i128);
    first(&[(nodes_fail(nodes), 2), (constraints_fail(constraints), 3), (asked.process > 2, 16), (asked.period > 1, 17)])?;
    let limits = cells(asked.limits, constraints)?;
    let table = cells(asked.factors, nodes * constraints)?;
    first(&[(limits.iter().any(|&limit| limit_fails(limit)), 6)])?;
    let factors = by_node(nodes, constraints, &table)?;
    let (_, book) = parse(nodes, asked.book)?;
    Ok((Grid { nodes, constraints, limits, factors }, of_period(&book, asked.period)))
}

pub fn test(asked: &Asked) -> Answer<[i128; 4]> {
    let (grid, contracts) = checked(asked)?;
    Ok(figures(&grid, asked.process, &contracts))
}

/// Released limits times prices.
pub fn rent(grid: &Grid, process: u64, prices: &[i128]) -> i128 {
    prices.iter().enumerate().map(|(k, price)| released(grid, process, k) * price).sum()
}

/// Net payment minus rent at a price list.
pub fn shortfall(grid: &Grid, process: u64, contracts: &[Contract], prices: &[i128]) -> i128 {
    exact_total(&mcc(grid, prices), contracts) - rent(grid, process, prices)
}
