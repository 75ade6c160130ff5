//! Trading hubs.

use crate::grids::Grid;
use crate::lent;
use crate::refused::{answered, written, Refused};
use crate::sizes::MAX_BOOK_BYTES;
use crate::terms::Contract;

/// A trading hub: its nodes, each with its weight beside it, together 100,000.
#[derive(Clone, Debug, PartialEq, Eq)]
pub struct Hub {
    /// 1 to 32 node numbers, none twice.
    pub nodes: Vec<u64>,
    /// Hundred-thousandths of the hub.
    pub weights: Vec<u64>,
}

/// The book's file grown by a contract from a hub. The contract's source is not looked at: the hub stands for it.
pub fn add_hub_contract(nodes: usize, book: &[u8], hub: &Hub, contract: Contract) -> Result<Vec<u8>, Refused> {
    let Contract { kind, period, holder, sink, quantity, .. } = contract;
    written(MAX_BOOK_BYTES, |file, bytes| {
        let (kind, period) = (kind as u64, period as u64);
        lent::add_hub_contract(nodes, book, kind, period, holder, &hub.nodes, &hub.weights, sink, quantity, file, bytes)
    })
}

/// A hub's MCC: quotient + remainder / 100,000, in 10^-5 cents per MWh.
#[derive(Clone, Copy, Debug, PartialEq, Eq)]
pub struct HubMcc {
    /// Rounded down.
    pub quotient: i64,
    /// 0 to 99,999.
    pub remainder: u64,
}

/// Finds the MCC of a hub.
pub fn find_hub_mcc(grid: &Grid, prices: &[u64], hub: &Hub) -> Result<HubMcc, Refused> {
    let Grid { nodes, constraints, factors, .. } = grid;
    let (mut quotient, mut remainder) = (0, 0);
    answered(|| lent::find_hub_mcc(*nodes, *constraints, factors, prices, &hub.nodes, &hub.weights, &mut quotient, &mut remainder))?;
    Ok(HubMcc { quotient, remainder })
}
