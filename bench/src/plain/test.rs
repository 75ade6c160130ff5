use super::book::{check_book, contracts, Contract, NARROW, WIDE};
use super::*;

/// The test's figures: all 0 where the book passes.
#[derive(Clone, Copy, Debug, Default, PartialEq, Eq)]
pub struct Overload {
    pub set: u64,
    pub count: usize,
    pub lowest: usize,
    pub excess: i64,
}

/// The flow on each constraint.
pub type Flows = [i64; MAX_CONSTRAINTS];

pub fn add_flow(flows: &mut [i64], factors: &[i64], c: Contract) {
    let constraints = flows.len();
    let source = &factors[c.source * constraints..][..constraints];
    let sink = &factors[c.sink * constraints..][..constraints];
    let quantity = c.quantity as i64;
    if c.option {
        for ((flow, &from), &to) in flows.iter_mut().zip(source).zip(sink) {
            *flow += (from - to).max(0) * quantity;
        }
    } else {
        for ((flow, &from), &to) in flows.iter_mut().zip(source).zip(sink) {
            *flow += (from - to) * quantity;
        }
    }
}

/// How many contracts the period has.
fn carry_contracts<const BYTES: usize>(period: u64, factors: &[i64], book: &[u8], flows: &mut [i64]) -> usize {
    let mut counted = 0;
    for c in contracts::<BYTES>(book).filter(|c| c.period == period) {
        add_flow(flows, factors, c);
        counted += 1;
    }
    counted
}

/// Adds the flows of one period's contracts to the cells of the constraints; tables and book have been checked.
pub fn carry_into(flows: &mut [i64], period: u64, factors: &[i64], form: Form, book: &[u8]) -> usize {
    match form {
        Form::Narrow => carry_contracts::<NARROW>(period, factors, book, flows),
        Form::Wide => carry_contracts::<WIDE>(period, factors, book, flows),
    }
}

/// The flows of one period's contracts; tables and book have been checked.
pub fn carry(constraints: usize, period: u64, factors: &[i64], form: Form, book: &[u8]) -> Flows {
    let mut flows = [0; MAX_CONSTRAINTS];
    carry_into(&mut flows[..constraints], period, factors, form, book);
    flows
}

pub fn released(process: u64, limit: u64) -> i64 {
    (limit * [65, 60, 100][process as usize] * 1000) as i64
}

/// The test's figures, all 0 where no flow exceeds its released limit.
pub fn verdict(process: u64, limits: &[u64], flows: &[i64]) -> Overload {
    let mut set = 0u64;
    for (k, (&limit, &flow)) in limits.iter().zip(flows).enumerate() {
        set |= u64::from(flow > released(process, limit)) << k;
    }
    if set == 0 {
        return Overload::default();
    }
    let lowest = set.trailing_zeros() as usize;
    Overload { set, count: set.count_ones() as usize, lowest, excess: flows[lowest] - released(process, limits[lowest]) }
}

/// What the test reads of its tables, and the book's form, where no check refuses.
pub struct Tested<'a> {
    pub limits: &'a [u64],
    pub factors: &'a [i64],
    pub form: Form,
}

#[inline(never)]
pub fn check_test<'a>(
    nodes: usize,
    constraints: usize,
    process: u64,
    period: u64,
    limits: &'a [u64],
    factors: &'a [i64],
    book: &[u8],
) -> Result<Tested<'a>, Refusal> {
    check_nodes(nodes)?;
    check_constraints(constraints)?;
    demand(process <= 2, PROCESS_NUMBER)?;
    demand(period <= 1, PERIOD_OR_KIND)?;
    let limits = limits.get(..constraints).ok_or(SHORT_TABLE)?;
    let factors = factors.get(..nodes * constraints).ok_or(SHORT_TABLE)?;
    check_limits(limits)?;
    check_factors(factors)?;
    let (_, form) = check_book(nodes, book)?;
    Ok(Tested { limits, factors, form })
}

#[inline(never)]
pub fn test_book(
    nodes: usize,
    constraints: usize,
    process: u64,
    period: u64,
    limits: &[u64],
    factors: &[i64],
    book: &[u8],
) -> Result<Overload, Refusal> {
    let tested = check_test(nodes, constraints, process, period, limits, factors, book)?;
    let flows = carry(constraints, period, tested.factors, tested.form, book);
    Ok(verdict(process, tested.limits, &flows))
}

/// The flow on each constraint, into the first cells of `flows`, and how many contracts were counted.
#[inline(never)]
pub fn find_flows(
    nodes: usize,
    constraints: usize,
    period: u64,
    limits: &[u64],
    factors: &[i64],
    book: &[u8],
    flows: &mut [i64],
) -> Result<usize, Refusal> {
    check_nodes(nodes)?;
    check_constraints(constraints)?;
    demand(period <= 1, PERIOD_OR_KIND)?;
    let limits = limits.get(..constraints).ok_or(SHORT_TABLE)?;
    let factors = factors.get(..nodes * constraints).ok_or(SHORT_TABLE)?;
    check_limits(limits)?;
    check_factors(factors)?;
    let (_, form) = check_book(nodes, book)?;
    let flows = flows.get_mut(..constraints).ok_or(SHORT_TABLE)?;
    flows.fill(0);
    Ok(carry_into(flows, period, factors, form, book))
}
