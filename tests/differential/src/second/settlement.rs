//! The MCC of the nodes and the hour's payments and charges.

use super::book::{parse, Contract};
use super::grid::{by_node, Grid};
use super::{cells, constraints_fail, first, nodes_fail, price_fails, Answer};

const CENT: i128 = 100_000_000;

/// Minus the sum over constraints of factor times price, for each node.
pub fn mcc(grid: &Grid, prices: &[i128]) -> Vec<i128> {
    let of_node = |factors: &Vec<i128>| -factors.iter().zip(prices).map(|(factor, price)| factor * price).sum::<i128>();
    grid.factors.iter().map(of_node).collect()
}

/// Sink minus source, times quantity, as it counts.
pub fn amount(mcc: &[i128], contract: &Contract) -> i128 {
    contract.counted((mcc[contract.sink as usize] - mcc[contract.source as usize]) * contract.quantity)
}

/// A constraint's share of a contract's price: price × (source factor - sink factor).
pub fn share(grid: &Grid, prices: &[i128], contract: &Contract, constraint: usize) -> i128 {
    let factor = |node: i128| grid.factors[node as usize][constraint];
    prices[constraint] * (factor(contract.source) - factor(contract.sink))
}

/// The constraints whose share isn't 0, whatever the contract is paid.
pub fn priced(grid: &Grid, prices: &[i128], contract: &Contract) -> Vec<usize> {
    (0..prices.len()).filter(|&k| share(grid, prices, contract, k) != 0).collect()
}

/// To the nearest cent, a half away from zero.
pub fn cents(amount: i128) -> i128 {
    let size = (amount.abs() + CENT / 2) / CENT;
    if amount < 0 {
        -size
    } else {
        size
    }
}

pub fn exact_total(mcc: &[i128], contracts: &[Contract]) -> i128 {
    contracts.iter().map(|contract| amount(mcc, contract)).sum()
}

/// A total as whole cents rounded down, and parts.
pub fn whole_and_parts(total: i128) -> (i128, i128) {
    (total.div_euclid(CENT), total.rem_euclid(CENT))
}

/// An hour settled: of each contract of the book its cents and the constraints that priced it, 0 and none for the other period's; sum, whole cents and parts.
#[derive(PartialEq)]
pub struct Hour {
    pub cents: Vec<i128>,
    pub priced: Vec<Vec<usize>>,
    pub sum: i128,
    pub whole: i128,
    pub parts: i128,
}

pub fn hour(grid: &Grid, prices: &[i128], period: i128, book: &[Contract]) -> Hour {
    let mcc = mcc(grid, prices);
    let own: Vec<Contract> = book.iter().filter(|contract| contract.period == period).copied().collect();
    let cell = |contract: &Contract| if contract.period == period { cents(amount(&mcc, contract)) } else { 0 };
    let cents: Vec<i128> = book.iter().map(cell).collect();
    let set = |contract: &Contract| if contract.period == period { priced(grid, prices, contract) } else { Vec::new() };
    let (whole, parts) = whole_and_parts(exact_total(&mcc, &own));
    Hour { sum: cents.iter().sum(), cents, priced: book.iter().map(set).collect(), whole, parts }
}

pub struct Asked<'a> {
    pub nodes: usize,
    pub constraints: usize,
    pub period: u64,
    pub factors: &'a [i64],
    pub prices: &'a [u64],
    pub book: &'a [u8],
}

/// The tables as a grid with no limits, and the prices: 7, 15.
fn tables(asked: &Asked) -> Answer<(Vec<i128>, Vec<i128>)> {
    let (nodes, constraints) = (asked.nodes as i128, asked.constraints as i128);
    Ok((cells(asked.factors, nodes * constraints)?, cells(asked.prices, constraints)?))
}

fn in_range(asked: &Asked, table: &[i128], prices: &[i128]) -> Answer<Grid> {
    let (nodes, constraints) = (asked.nodes as i128, asked.constraints as i128);
    let factors = by_node(nodes, constraints, table)?;
    first(&[(prices.iter().any(|&price| price_fails(price)), 15)])?;
    Ok(Grid { nodes, constraints, limits: Vec::new(), factors })
}

pub fn find_mcc(asked: &Asked, room: usize) -> Answer<Vec<i128>> {
    first(&[(nodes_fail(asked.nodes as i128), 2), (constraints_fail(asked.constraints as i128), 3)])?;
    let (table, prices) = tables(asked)?;
    first(&[(room < asked.nodes, 9)])?;
    let grid = in_range(asked, &table, &prices)?;
    Ok(mcc(&grid, &prices))
}

pub fn settle(asked: &Asked, cents_room: usize, priced_room: usize) -> Answer<Hour> {
    first(&[(nodes_fail(asked.nodes as i128), 2), (constraints_fail(asked.constraints as i128), 3), (asked.period > 1, 17)])?;
    let (table, prices) = tables(asked)?;
    let grid = in_range(asked, &table, &prices)?;
    let (_, book) = parse(asked.nodes as i128, asked.book)?;
    first(&[(cents_room < book.len(), 9), (priced_room < book.len(), 9)])?;
    Ok(hour(&grid, &prices, asked.period as i128, &book))
}
