//! Running totals of flows.

use super::test::{carry_into, check_test, verdict, Overload, Tested};
use super::*;

const MAX_SUMMED: usize = 20_000_000;
const MAX_FLOW: u64 = 200_000_000_000;

fn check_totals(flows: &[i64], count: usize) -> Result<(), Refusal> {
    demand(count <= MAX_SUMMED, CONTRACT_COUNT)?;
    let most = MAX_FLOW * count as u64;
    demand(flows.iter().all(|flow| flow.unsigned_abs() <= most), CONTRACT_COUNT)
}

/// Adds the period's flows to the first cells of `flows`, and how many contracts it has, which is given, to `count`.
#[allow(clippy::too_many_arguments)]
#[inline(never)]
pub fn add_flows(
    nodes: usize,
    constraints: usize,
    period: u64,
    limits: &[u64],
    factors: &[i64],
    book: &[u8],
    flows: &mut [i64],
    count: &mut usize,
) -> Result<usize, Refusal> {
    let Tested { factors, form, .. } = check_test(nodes, constraints, 0, period, limits, factors, book)?;
    let flows = flows.get_mut(..constraints).ok_or(SHORT_TABLE)?;
    check_totals(flows, *count)?;
    let mut own = [0; MAX_CONSTRAINTS];
    let counted = carry_into(&mut own[..constraints], period, factors, form, book);
    demand(*count + counted <= MAX_SUMMED, CONTRACT_COUNT)?;
    for (flow, own) in flows.iter_mut().zip(own) {
        *flow += own;
    }
    *count += counted;
    Ok(counted)
}

/// The test's figures by the totals of so many contracts.
#[inline(never)]
pub fn judge_flows(constraints: usize, process: u64, limits: &[u64], flows: &[i64], summed: usize) -> Result<Overload, Refusal> {
    check_constraints(constraints)?;
    demand(process <= 2, PROCESS_NUMBER)?;
    let limits = limits.get(..constraints).ok_or(SHORT_TABLE)?;
    let flows = flows.get(..constraints).ok_or(SHORT_TABLE)?;
    check_limits(limits)?;
    check_totals(flows, summed)?;
    Ok(verdict(process, limits, flows))
}
