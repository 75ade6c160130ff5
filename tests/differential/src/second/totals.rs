//! Running totals of flows, beyond the papers: what crr.h says of a book's flows added to them, and of a block judged by them.

use super::flows::find_flows;
use super::test::{Asked, RELEASED};
use super::{cells, constraints_fail, first, limit_fails, set_of, Answer};

/// Totals are of at most so many contracts.
pub const MAX_SUMMED: i128 = 20_000_000;

/// No contract's flow is larger: 1,000,000 thousandths of a MW, from a factor of 100,000 to one of -100,000.
pub const MAX_FLOW: i128 = 200_000_000_000;

/// Too many contracts, or a flow that so many can't make.
fn no_totals(flows: &[i128], count: i128) -> bool {
    count > MAX_SUMMED || flows.iter().any(|flow| flow.abs() > MAX_FLOW * count)
}

/// The totals at exit, and how many contracts were added.
pub struct Added {
    pub flows: Vec<i128>,
    pub count: i128,
    pub counted: i128,
}

/// The checks of finding the flows, 9 for the totals' cells among them; then 10.
pub fn add_flows(asked: &Asked, flows: &[i64], count: usize) -> Answer<Added> {
    let found = find_flows(asked, flows.len())?;
    let before = cells(flows, asked.constraints as i128)?;
    let (held, count) = (count as i128, count as i128 + found.counted);
    first(&[(no_totals(&before, held), 10), (count > MAX_SUMMED, 10)])?;
    let flows = before.iter().zip(&found.flows).map(|(before, flow)| before + flow).collect();
    Ok(Added { flows, count, counted: found.counted })
}

pub struct Block<'a> {
    pub constraints: usize,
    pub process: u64,
    pub limits: &'a [u64],
    pub flows: &'a [i64],
    pub summed: usize,
}

/// The test's figures by the totals: set, count, lowest, excess; all 0 on a pass.
pub fn judge_flows(block: &Block) -> Answer<[i128; 4]> {
    let constraints = block.constraints as i128;
    first(&[(constraints_fail(constraints), 3), (block.process > 2, 16)])?;
    let limits = cells(block.limits, constraints)?;
    let flows = cells(block.flows, constraints)?;
    first(&[(limits.iter().any(|&limit| limit_fails(limit)), 6), (no_totals(&flows, block.summed as i128), 10)])?;
    let excess = |k: usize| flows[k] - limits[k] * RELEASED[block.process as usize] * 1000;
    let over: Vec<usize> = (0..block.constraints).filter(|&k| excess(k) > 0).collect();
    Ok(match over.first() {
        None => [0; 4],
        Some(&lowest) => [set_of(&over), over.len() as i128, lowest as i128, excess(lowest)],
    })
}
