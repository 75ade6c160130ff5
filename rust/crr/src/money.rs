//! Prices, an hour's settlement and a balance's shares.

use crate::books::count_contracts;
use crate::grids::Grid;
use crate::lent;
use crate::refused::{answered, written, Refused};
use crate::sizes::{MAX_CONSTRAINTS, MAX_PRICE_BYTES};
use crate::terms::Period;

/// Reads a price file, for a grid of so many constraints: the hour's period, and a price for each constraint, in cents per MWh.
pub fn read_prices(constraints: usize, file: &[u8]) -> Result<(Period, Vec<u64>), Refused> {
    let (mut prices, mut period) = (vec![0; MAX_CONSTRAINTS], 0);
    answered(|| lent::read_prices(constraints, file, &mut prices, &mut period))?;
    prices.truncate(constraints);
    Ok((Period::told(period), prices))
}

/// The price file of an hour.
pub fn write_prices(period: Period, prices: &[u64]) -> Result<Vec<u8>, Refused> {
    written(MAX_PRICE_BYTES, |file, bytes| lent::write_prices(period as u64, prices.len(), prices, file, bytes))
}

/// The MCC of each node, in 10^-5 cents per MWh.
pub fn find_mcc(grid: &Grid, prices: &[u64]) -> Result<Vec<i64>, Refused> {
    let mut mcc = vec![0; grid.nodes];
    answered(|| lent::find_mcc(grid.nodes, grid.constraints, &grid.factors, prices, &mut mcc))?;
    Ok(mcc)
}

/// An hour settled.
#[derive(Clone, Debug, PartialEq, Eq)]
pub struct Hour {
    /// Each contract's amount, to the nearest cent; 0 for the other period's.
    pub cents: Vec<i64>,
    /// The constraints that priced each contract: bit k is constraint k.
    pub priced: Vec<u64>,
    /// The cents added.
    pub sum: i64,
    /// The exact total: whole cents, rounded down.
    pub whole: i64,
    /// What the exact total has beyond them, in 10^-8 cents.
    pub parts: u64,
}

/// Settles an hour of a period, for the contracts of a book's file.
pub fn settle_hour(grid: &Grid, prices: &[u64], period: Period, book: &[u8]) -> Result<Hour, Refused> {
    // A book that is refused has no contracts to make room for: the settlement's own checks then say what is wrong, in their order.
    let contracts = count_contracts(grid.nodes, book).unwrap_or(0);
    let (mut cents, mut priced) = (vec![0; contracts], vec![0; contracts]);
    let (mut sum, mut whole, mut parts) = (0, 0, 0);
    answered(|| {
        let Grid { nodes, constraints, factors, .. } = grid;
        let period = period as u64;
        lent::settle_hour(*nodes, *constraints, period, factors, prices, book, &mut cents, &mut priced, &mut sum, &mut whole, &mut parts)
    })?;
    Ok(Hour { cents, priced, sum, whole, parts })
}

/// Shares a balance of cents among coordinators by their demands.
pub fn share_balance(balance: i64, demands: &[u64]) -> Result<Vec<i64>, Refused> {
    let mut shares = vec![0; demands.len()];
    answered(|| lent::share_balance(balance, demands, &mut shares))?;
    Ok(shares)
}
