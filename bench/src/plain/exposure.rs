use super::book::{check_book, contracts, Contract, NARROW, WIDE};
use super::settlement::{exact_total, fill_mcc};
use super::test::{carry, check_test, released, Flows, Tested};
use super::*;

const CENT: i128 = 100_000_000;
const HIGHEST_PRICE: u64 = 500_000;
/// Every set of so many overloaded constraints is tried.
const FEW: usize = 10;
const SETS: usize = 1 << FEW;

/// An exact figure: whole cents, rounded down, and parts.
#[derive(Clone, Copy, Debug, Default, PartialEq, Eq)]
pub struct ExactCents {
    pub whole: i64,
    pub parts: u64,
}

impl ExactCents {
    fn new(figure: i128) -> Self {
        ExactCents { whole: figure.div_euclid(CENT) as i64, parts: figure.rem_euclid(CENT) as u64 }
    }
}

/// Net payment and shortfall at prices; tables and book have been checked.
#[allow(clippy::too_many_arguments)]
fn cost(nodes: usize, process: u64, period: u64, limits: &[u64], factors: &[i64], form: Form, book: &[u8], prices: &[u64]) -> [i128; 2] {
    let mut mcc = vec![0; nodes];
    fill_mcc(limits.len(), factors, prices, &mut mcc);
    let payment = match form {
        Form::Narrow => exact_total::<NARROW>(&mcc, period, book),
        Form::Wide => exact_total::<WIDE>(&mcc, period, book),
    };
    let rent: i128 = limits.iter().zip(prices).map(|(&limit, &price)| i128::from(released(process, limit)) * i128::from(price)).sum();
    [payment, payment - rent]
}

/// Net payment, rent and shortfall.
#[inline(never)]
#[allow(clippy::too_many_arguments)]
pub fn find_shortfall(
    nodes: usize,
    constraints: usize,
    process: u64,
    period: u64,
    limits: &[u64],
    factors: &[i64],
    prices: &[u64],
    book: &[u8],
) -> Result<[ExactCents; 3], Refusal> {
    check_nodes(nodes)?;
    check_constraints(constraints)?;
    demand(process <= 2, PROCESS_NUMBER)?;
    demand(period <= 1, PERIOD_OR_KIND)?;
    let limits = limits.get(..constraints).ok_or(SHORT_TABLE)?;
    let factors = factors.get(..nodes * constraints).ok_or(SHORT_TABLE)?;
    let prices = prices.get(..constraints).ok_or(SHORT_TABLE)?;
    check_limits(limits)?;
    check_factors(factors)?;
    check_prices(prices)?;
    let (_, form) = check_book(nodes, book)?;
    let [payment, shortfall] = cost(nodes, process, period, limits, factors, form, book, prices);
    Ok([payment, payment - shortfall, shortfall].map(ExactCents::new))
}

/// The overloaded constraints, with what each is over by.
struct Over {
    numbers: [usize; MAX_CONSTRAINTS],
    excess: [i64; MAX_CONSTRAINTS],
    count: usize,
}

fn over(process: u64, limits: &[u64], flows: &Flows) -> Over {
    let mut found = Over { numbers: [0; MAX_CONSTRAINTS], excess: [0; MAX_CONSTRAINTS], count: 0 };
    for (k, (&limit, &flow)) in limits.iter().zip(flows).enumerate() {
        let excess = flow - released(process, limit);
        if excess > 0 {
            (found.numbers[found.count], found.excess[found.count]) = (k, excess);
            found.count += 1;
        }
    }
    found
}

/// A figure for each set from one for each member: those of the sets before a member, then the same with its own in addition.
fn sums(figures: &[i64], sets: &mut [i64]) {
    sets[0] = 0;
    for (place, figure) in figures.iter().enumerate() {
        let (before, with) = sets.split_at_mut(1 << place);
        for (sum, less) in with.iter_mut().zip(before) {
            *sum = *less + figure;
        }
    }
}

/// What each set costs at one cent: what obligations are paid, less the rent, adds up by constraint; an option is paid by the set.
fn set_costs<const BYTES: usize>(
    over: &Over,
    rent: &[i64],
    period: u64,
    constraints: usize,
    factors: &[i64],
    book: &[u8],
    costs: &mut [i64],
) {
    let (mut sets, mut figures, mut fixed) = ([0; SETS], [0; FEW], [0; FEW]);
    for (own, rent) in fixed.iter_mut().zip(rent) {
        *own = -rent;
    }
    let sets = &mut sets[..1 << over.count];
    costs.fill(0);
    for c in contracts::<BYTES>(book).filter(|c| c.period == period) {
        let Contract { option, source, sink, quantity, .. } = c;
        for (figure, &k) in figures.iter_mut().zip(&over.numbers[..over.count]) {
            *figure = (factors[source * constraints + k] - factors[sink * constraints + k]) * quantity as i64;
        }
        if !option {
            fixed.iter_mut().zip(&figures[..over.count]).for_each(|(own, figure)| *own += figure);
            continue;
        }
        sums(&figures[..over.count], sets);
        for (cost, &paid) in costs.iter_mut().zip(&*sets) {
            *cost += paid.max(0);
        }
    }
    sums(&fixed[..over.count], sets);
    for (cost, &paid) in costs.iter_mut().zip(&*sets) {
        *cost += paid;
    }
}

/// The set that costs the most, the first of equals: its cost at one cent and its number among the overloaded constraints.
fn worst_set(found: &Over, process: u64, period: u64, tested: &Tested, book: &[u8]) -> (i64, usize) {
    let (mut costs, mut rent) = ([0; SETS], [0; FEW]);
    let (costs, constraints) = (&mut costs[..1 << found.count], tested.limits.len());
    for (own, &k) in rent.iter_mut().zip(&found.numbers[..found.count]) {
        *own = released(process, tested.limits[k]);
    }
    match tested.form {
        Form::Narrow => set_costs::<NARROW>(found, &rent, period, constraints, tested.factors, book, costs),
        Form::Wide => set_costs::<WIDE>(found, &rent, period, constraints, tested.factors, book, costs),
    }
    costs.iter().enumerate().fold((0, 0), |worst, (set, &cost)| if cost > worst.0 { (cost, set) } else { worst })
}

fn bracket(found: &Over, process: u64, period: u64, nodes: usize, tested: &Tested, book: &[u8], prices: &mut [u64]) -> [ExactCents; 2] {
    let &Tested { limits, factors, form } = tested;
    let (numbers, excess) = (&found.numbers[..found.count], &found.excess[..found.count]);
    numbers.iter().for_each(|&k| prices[k] = HIGHEST_PRICE);
    let [_, all] = cost(nodes, process, period, limits, factors, form, book, prices);
    let place = (0..found.count).rev().max_by_key(|&place| excess[place]).expect("many are overloaded");
    let alone = i128::from(excess[place]) * i128::from(HIGHEST_PRICE);
    if alone > all {
        prices.fill(0);
        prices[numbers[place]] = HIGHEST_PRICE;
    }
    let most = i128::from(excess.iter().sum::<i64>()) * i128::from(HIGHEST_PRICE);
    [all.max(alone), most].map(ExactCents::new)
}

/// What the book can cost, at least and at most, and the prices that cost the least, into the first cells of `prices`.
#[inline(never)]
#[allow(clippy::too_many_arguments)]
pub fn find_exposure(
    nodes: usize,
    constraints: usize,
    process: u64,
    period: u64,
    limits: &[u64],
    factors: &[i64],
    book: &[u8],
    prices: &mut [u64],
) -> Result<[ExactCents; 2], Refusal> {
    let tested = check_test(nodes, constraints, process, period, limits, factors, book)?;
    let prices = prices.get_mut(..constraints).ok_or(SHORT_TABLE)?;
    let found = over(process, tested.limits, &carry(constraints, period, tested.factors, tested.form, book));
    prices.fill(0);
    if found.count > FEW {
        return Ok(bracket(&found, process, period, nodes, &tested, book, prices));
    }
    if found.count == 0 {
        return Ok([ExactCents::default(); 2]);
    }
    let (cost, set) = worst_set(&found, process, period, &tested, book);
    for (place, &k) in found.numbers[..found.count].iter().enumerate() {
        prices[k] = if set >> place & 1 == 1 { HIGHEST_PRICE } else { 0 };
    }
    Ok([ExactCents::new(i128::from(cost) * i128::from(HIGHEST_PRICE)); 2])
}
