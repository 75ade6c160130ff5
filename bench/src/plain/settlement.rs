use super::book::{check_book, contracts, Contract, NARROW, WIDE};
use super::*;

/// The hour's figures: the sum of the rounded cents, and the exact total as whole cents and parts.
#[derive(Clone, Copy, Debug, Default, PartialEq, Eq)]
pub struct Totals {
    pub sum: i64,
    pub whole: i64,
    pub parts: u64,
}

const CENT: i64 = 100_000_000;

#[inline]
pub fn node_mcc(constraints: usize, factors: &[i64], prices: &[u64], node: usize) -> i64 {
    let row = &factors[node * constraints..][..constraints];
    -row.iter().zip(prices).map(|(&factor, &price)| factor * price as i64).sum::<i64>()
}

pub fn fill_mcc(constraints: usize, factors: &[i64], prices: &[u64], mcc: &mut [i64]) {
    for (node, cell) in mcc.iter_mut().enumerate() {
        *cell = node_mcc(constraints, factors, prices, node);
    }
}

#[inline(never)]
pub fn find_mcc(nodes: usize, constraints: usize, factors: &[i64], prices: &[u64], mcc: &mut [i64]) -> Result<(), Refusal> {
    check_nodes(nodes)?;
    check_constraints(constraints)?;
    let factors = factors.get(..nodes * constraints).ok_or(SHORT_TABLE)?;
    let prices = prices.get(..constraints).ok_or(SHORT_TABLE)?;
    let mcc = mcc.get_mut(..nodes).ok_or(SHORT_TABLE)?;
    check_factors(factors)?;
    check_prices(prices)?;
    fill_mcc(constraints, factors, prices, mcc);
    Ok(())
}

fn amount(mcc: &[i64], c: Contract) -> i64 {
    let exact = (mcc[c.sink] - mcc[c.source]) * c.quantity as i64;
    if c.option {
        exact.max(0)
    } else {
        exact
    }
}

/// The exact amounts of one period's contracts added.
pub fn exact_total<const BYTES: usize>(mcc: &[i64], period: u64, book: &[u8]) -> i128 {
    contracts::<BYTES>(book).filter(|c| c.period == period).map(|c| i128::from(amount(mcc, c))).sum()
}

/// To the nearest cent, a half away from zero.
fn rounded(amount: i64) -> i64 {
    (amount + amount.signum() * (CENT / 2)) / CENT
}

/// A set of constraints: bit k is constraint k.
fn set_of(cells: impl DoubleEndedIterator<Item = bool>) -> u64 {
    cells.rev().fold(0, |set, cell| set << 1 | u64::from(cell))
}

fn differing(from: &[i64], to: &[i64]) -> u64 {
    set_of(from.iter().zip(to).map(|(from, to)| from != to))
}

/// The constraints on which source and sink have different factors, eight at once.
fn spread(constraints: usize, factors: &[i64], c: Contract) -> u64 {
    let (source, last_source) = factors[c.source * constraints..][..constraints].as_chunks::<8>();
    let (sink, last_sink) = factors[c.sink * constraints..][..constraints].as_chunks::<8>();
    source.iter().zip(sink).rev().fold(differing(last_source, last_sink), |set, (from, to)| set << 8 | differing(from, to))
}

/// An hour's tables, checked.
struct Hour<'a> {
    constraints: usize,
    period: u64,
    factors: &'a [i64],
    mcc: &'a [i64],
    /// The constraints whose price isn't 0.
    moving: u64,
}

fn settle<const BYTES: usize>(hour: &Hour, book: &[u8], cents: &mut [i64], priced: &mut [u64]) -> Totals {
    let (mut sum, mut exact) = (0, 0i128);
    for ((cell, set), c) in cents.iter_mut().zip(priced).zip(contracts::<BYTES>(book)) {
        if c.period != hour.period {
            (*cell, *set) = (0, 0);
            continue;
        }
        let amount = amount(hour.mcc, c);
        *cell = rounded(amount);
        *set = hour.moving & spread(hour.constraints, hour.factors, c);
        sum += *cell;
        exact += i128::from(amount);
    }
    let whole = exact.div_euclid(i128::from(CENT)) as i64;
    let parts = exact.rem_euclid(i128::from(CENT)) as u64;
    Totals { sum, whole, parts }
}

#[inline(never)]
#[allow(clippy::too_many_arguments)]
pub fn settle_hour(
    nodes: usize,
    constraints: usize,
    period: u64,
    factors: &[i64],
    prices: &[u64],
    book: &[u8],
    cents: &mut [i64],
    priced: &mut [u64],
) -> Result<Totals, Refusal> {
    check_nodes(nodes)?;
    check_constraints(constraints)?;
    demand(period <= 1, PERIOD_OR_KIND)?;
    let factors = factors.get(..nodes * constraints).ok_or(SHORT_TABLE)?;
    let prices = prices.get(..constraints).ok_or(SHORT_TABLE)?;
    check_factors(factors)?;
    check_prices(prices)?;
    let (count, form) = check_book(nodes, book)?;
    let cents = cents.get_mut(..count).ok_or(SHORT_TABLE)?;
    let priced = priced.get_mut(..count).ok_or(SHORT_TABLE)?;
    let mut mcc = vec![0; nodes];
    fill_mcc(constraints, factors, prices, &mut mcc);
    let moving = set_of(prices.iter().map(|&price| price != 0));
    let hour = Hour { constraints, period, factors, mcc: &mcc, moving };
    Ok(match form {
        Form::Narrow => settle::<NARROW>(&hour, book, cents, priced),
        Form::Wide => settle::<WIDE>(&hour, book, cents, priced),
    })
}
