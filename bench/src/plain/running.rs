use super::book::{check_ends, Contract};
use super::test::{add_flow, released, Flows};
use super::*;
use crate::library::{Opening, State};

/// Cells of a running test's three buffers.
pub const RUNNING_AWARDS: usize = 6 * MAX_CONTRACTS;
pub const RUNNING_NUMBERS: usize = 2 + 3 * TIERS;
pub const RUNNING_FLOWS: usize = MAX_CONSTRAINTS * (1 + TIERS);
const TIERS: usize = 4;
/// No award's flow is larger.
const MOST_FLOW: i64 = 200_000_000_000;

/// What a running test reads of its tables.
struct Tables<'a> {
    limits: &'a [u64],
    factors: &'a [i64],
}

fn check_marks(state: &State) -> Result<(), Refusal> {
    demand(state.numbers.len() >= RUNNING_NUMBERS && state.flows.len() >= RUNNING_FLOWS, SHORT_TABLE)
}

fn check_opening<'a>(opening: &Opening<'a>, state: &State, award: usize) -> Result<Tables<'a>, Refusal> {
    check_nodes(opening.nodes)?;
    check_constraints(opening.constraints)?;
    demand(opening.process <= 2, PROCESS_NUMBER)?;
    demand(opening.period <= 1, PERIOD_OR_KIND)?;
    let limits = opening.limits.get(..opening.constraints).ok_or(SHORT_TABLE)?;
    let factors = opening.factors.get(..opening.nodes * opening.constraints).ok_or(SHORT_TABLE)?;
    demand(award >= 6 && state.awards.len() >= RUNNING_AWARDS, SHORT_TABLE)?;
    check_marks(state)?;
    check_limits(limits)?;
    check_factors(factors)?;
    Ok(Tables { limits, factors })
}

#[inline(never)]
pub fn open_running(opening: &Opening, state: &mut State) -> Result<(), Refusal> {
    check_opening(opening, state, 6)?;
    state.numbers[..RUNNING_NUMBERS].fill(0);
    state.flows[..RUNNING_FLOWS].fill(0);
    Ok(())
}

fn check_award(nodes: usize, row: &[u64]) -> Result<Contract, Refusal> {
    let &[kind, period, holder, source, sink, quantity] = row else { return Err(SHORT_TABLE) };
    demand(kind <= 1 && period <= 1, PERIOD_OR_KIND)?;
    demand(holder <= 1023, HOLDER_RANGE)?;
    check_ends(nodes as u64, source, sink, quantity)?;
    Ok(Contract { option: kind == 1, period, holder, source: source as usize, sink: sink as usize, quantity })
}

/// The flows with the award's, where the cells are sound and no flow exceeds its released limit.
fn with_award(tables: &Tables, process: u64, award: Contract, state: &State) -> Result<Flows, Refusal> {
    let constraints = tables.limits.len();
    let (held, counted) = (state.numbers[0], state.numbers[1]);
    demand(counted <= held, AWARD_OVERLOAD)?;
    let most = MOST_FLOW * counted as i64;
    let mut flows = [0; MAX_CONSTRAINTS];
    flows[..constraints].copy_from_slice(&state.flows[..constraints]);
    demand(!flows.iter().any(|&flow| flow < -most || flow > most), AWARD_OVERLOAD)?;
    add_flow(&mut flows[..constraints], tables.factors, award);
    let over = tables.limits.iter().zip(&flows).fold(false, |over, (&limit, &flow)| over | (flow > released(process, limit)));
    demand(!over, AWARD_OVERLOAD)?;
    Ok(flows)
}

#[inline(never)]
pub fn add_award(opening: &Opening, row: &[u64], state: &mut State) -> Result<(), Refusal> {
    let tables = check_opening(opening, state, row.len())?;
    let held = state.numbers[0];
    demand(held < MAX_CONTRACTS as u64, CONTRACT_COUNT)?;
    let award = check_award(opening.nodes, &row[..6])?;
    if award.period == opening.period {
        let flows = with_award(&tables, opening.process, award, state)?;
        state.flows[..opening.constraints].copy_from_slice(&flows[..opening.constraints]);
        state.numbers[1] += 1;
    }
    state.awards[6 * held as usize..][..6].copy_from_slice(&row[..6]);
    state.numbers[0] = held + 1;
    Ok(())
}

fn check_tier(tier: u64) -> Result<usize, Refusal> {
    demand((1..=TIERS as u64).contains(&tier), TIER_MARK)?;
    Ok(tier as usize)
}

#[inline(never)]
pub fn mark_tier(tier: u64, state: &mut State) -> Result<(), Refusal> {
    check_marks(state)?;
    let tier = check_tier(tier)?;
    let (held, counted) = (state.numbers[0], state.numbers[1]);
    state.numbers[3 * tier - 1..3 * tier + 2].copy_from_slice(&[1, held, counted]);
    state.flows.copy_within(..MAX_CONSTRAINTS, MAX_CONSTRAINTS * tier);
    Ok(())
}

#[inline(never)]
pub fn return_to_tier(tier: u64, state: &mut State) -> Result<(), Refusal> {
    check_marks(state)?;
    let tier = check_tier(tier)?;
    demand(state.numbers[3 * tier - 1] != 0, TIER_MARK)?;
    let held = state.numbers[3 * tier];
    state.numbers[0] = held;
    state.numbers[1] = state.numbers[3 * tier + 1];
    for other in 1..=TIERS {
        if state.numbers[3 * other] > held {
            state.numbers[3 * other - 1] = 0;
        }
    }
    state.flows.copy_within(MAX_CONSTRAINTS * tier..MAX_CONSTRAINTS * (tier + 1), 0);
    Ok(())
}
