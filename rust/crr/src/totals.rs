//! A grid and a book of any size, tested block by block.

use crate::books::Verdict;
use crate::grids::Grid;
use crate::lent;
use crate::refused::{answered, Refused};
use crate::terms::{Period, Process};

/// The flows on a block of up to 64 constraints, of the contracts added so far.
#[derive(Clone, Debug, PartialEq, Eq)]
pub struct Totals {
    /// That of each constraint, in 10^-8 MW.
    pub flows: Vec<i64>,
    /// How many contracts they are of, up to 20,000,000.
    pub count: usize,
}

impl Totals {
    /// Those of a block of so many constraints before any contract is added.
    pub fn new(constraints: usize) -> Totals {
        Totals { flows: vec![0; constraints], count: 0 }
    }
}

/// Adds the flows of the contracts of one period, of a book's file, to a block's totals, and gives how many they are. The grid has the block's constraints
/// and, numbered as the book numbers them, the nodes of its contracts.
pub fn add_flows(grid: &Grid, period: Period, book: &[u8], totals: &mut Totals) -> Result<usize, Refused> {
    let Grid { nodes, constraints, limits, factors, .. } = grid;
    let (Totals { flows, count }, mut counted) = (totals, 0);
    answered(|| lent::add_flows(*nodes, *constraints, period as u64, limits, factors, book, flows, count, &mut counted))?;
    Ok(counted)
}

/// Judges a block's totals by its limits in a process, as the test judges. The constraints of the verdict are numbered as in the block.
pub fn judge_flows(process: Process, limits: &[u64], totals: &Totals) -> Result<Verdict, Refused> {
    let Totals { flows, count: summed } = totals;
    let (mut set, mut count, mut lowest, mut excess) = (0, 0, 0, 0);
    answered(|| {
        let lent = (&mut set, &mut count, &mut lowest, &mut excess);
        lent::judge_flows(limits.len(), process as u64, limits, flows, *summed, lent.0, lent.1, lent.2, lent.3)
    })?;
    Ok(Verdict::told(set, count, lowest, excess))
}
