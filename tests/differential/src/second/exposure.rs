//! What a book costs at a price list and at worst (beyond the papers, by the terms of the third demand). The worst is found in two ways: every list by the
//! definition of the shortfall, and, where there is much to add, with each contract's sum carried from constraint to constraint.

use super::book::{parse, Contract};
use super::grid::{by_node, Grid};
use super::settlement::{exact_total, mcc, whole_and_parts};
use super::test::{checked, excess, of_period, overloaded, released, rent, shortfall, Asked};
use super::{cells, constraints_fail, first, limit_fails, nodes_fail, price_fails, set_of, Answer};

pub const HIGHEST_PRICE: i128 = 500_000;
/// Every set of so many overloaded constraints, and of fewer, is tried.
pub const FEW: usize = 10;

/// Net payment, rent and shortfall at a price list, in 10^-8 cents.
#[derive(Clone, Copy, Debug, PartialEq, Eq)]
pub struct Cost {
    pub payment: i128,
    pub rent: i128,
    pub shortfall: i128,
}

impl Cost {
    /// The six figures as they are lent: whole cents and parts of each.
    pub fn figures(&self) -> [i128; 6] {
        let [payment, rent, shortfall] = [self.payment, self.rent, self.shortfall].map(whole_and_parts);
        [payment.0, payment.1, rent.0, rent.1, shortfall.0, shortfall.1]
    }
}

pub fn cost(grid: &Grid, process: u64, contracts: &[Contract], prices: &[i128]) -> Cost {
    let (payment, rent) = (exact_total(&mcc(grid, prices), contracts), rent(grid, process, prices));
    Cost { payment, rent, shortfall: payment - rent }
}

/// 2, 3, 16, 17, 9 (limits, factors, prices), 6, 7, 15, then the book's own.
pub fn find_shortfall(asked: &Asked, prices: &[u64]) -> Answer<Cost> {
    let (nodes, constraints) = (asked.nodes as i128, asked.constraints as i128);
    first(&[(nodes_fail(nodes), 2), (constraints_fail(constraints), 3), (asked.process > 2, 16), (asked.period > 1, 17)])?;
    let (limits, table) = (cells(asked.limits, constraints)?, cells(asked.factors, nodes * constraints)?);
    let prices = cells(prices, constraints)?;
    first(&[(limits.iter().any(|&limit| limit_fails(limit)), 6)])?;
    let factors = by_node(nodes, constraints, &table)?;
    first(&[(prices.iter().any(|&price| price_fails(price)), 15)])?;
    let (_, book) = parse(nodes, asked.book)?;
    Ok(cost(&Grid { nodes, constraints, limits, factors }, asked.process, &of_period(&book, asked.period), &prices))
}

/// The highest price on some constraints, 0 on the others.
pub fn highest_on(constraints: usize, set: &[usize]) -> Vec<i128> {
    (0..constraints).map(|k| if set.contains(&k) { HIGHEST_PRICE } else { 0 }).collect()
}

/// Every set of some constraints.
pub fn sets(constraints: &[usize]) -> Vec<Vec<usize>> {
    match constraints.split_last() {
        None => vec![Vec::new()],
        Some((last, others)) => {
            let without = sets(others);
            let with = without.iter().map(|set| [&set[..], &[*last]].concat()).collect::<Vec<_>>();
            [without, with].concat()
        }
    }
}

/// A book that no check refuses, as it is tested: the contracts are those of the period.
pub struct Exposed {
    pub grid: Grid,
    pub process: u64,
    pub contracts: Vec<Contract>,
}

/// The list drawn, and what it costs at least and at most.
#[derive(Clone, Debug, PartialEq, Eq)]
pub struct Exposure {
    pub prices: Vec<i128>,
    pub least: i128,
    pub most: i128,
}

impl Exposure {
    /// The four figures as they are lent.
    pub fn figures(&self) -> [i128; 4] {
        let [least, most] = [self.least, self.most].map(whole_and_parts);
        [least.0, least.1, most.0, most.1]
    }
}

/// A set and what it costs.
type Tried = (Vec<usize>, i128);

impl Exposed {
    /// The checks are the test's.
    pub fn new(asked: &Asked) -> Answer<Self> {
        let (grid, contracts) = checked(asked)?;
        Ok(Exposed { grid, process: asked.process, contracts })
    }

    pub fn over(&self) -> Vec<usize> {
        overloaded(&self.grid, self.process, &self.contracts)
    }

    pub fn excess(&self, constraint: usize) -> i128 {
        excess(&self.grid, self.process, &self.contracts, constraint)
    }

    /// What the highest price on a set of constraints costs.
    pub fn at_highest(&self, set: &[usize]) -> i128 {
        shortfall(&self.grid, self.process, &self.contracts, &highest_on(self.grid.limits.len(), set))
    }

    /// Each set of some constraints, by the definition.
    pub fn by_lists(&self, constraints: &[usize]) -> Vec<Tried> {
        sets(constraints).into_iter().map(|set| (set.clone(), self.at_highest(&set))).collect()
    }

    /// Each set of some constraints, by what each contract was paid on those before it and the rent there.
    pub fn by_carrying(&self, constraints: &[usize]) -> Vec<Tried> {
        let mut all = Vec::new();
        self.carry(constraints, Vec::new(), vec![0; self.contracts.len()], 0, &mut all);
        all
    }

    fn carry(&self, left: &[usize], set: Vec<usize>, paid: Vec<i128>, rent: i128, all: &mut Vec<Tried>) {
        let Some((&k, left)) = left.split_first() else {
            let payment: i128 = self.contracts.iter().zip(&paid).map(|(own, &amount)| own.counted(amount)).sum();
            return all.push((set, payment - rent));
        };
        let factor = |node: i128| self.grid.factors[node as usize][k];
        let share = |own: &Contract| (factor(own.source) - factor(own.sink)) * HIGHEST_PRICE * own.quantity;
        let more = paid.iter().zip(&self.contracts).map(|(amount, own)| amount + share(own)).collect();
        let rent_too = rent + released(&self.grid, self.process, k) * HIGHEST_PRICE;
        self.carry(left, [&set[..], &[k]].concat(), more, rent_too, all);
        self.carry(left, set, paid, rent, all);
    }

    /// Where few are overloaded: the set that costs the most, of equals that of the least number.
    fn exact(&self, tried: Vec<Tried>) -> Exposure {
        let worst = tried.iter().map(|(_, cost)| *cost).max().expect("the set of none is one");
        let equal = tried.into_iter().filter(|(_, cost)| *cost == worst);
        let (set, _) = equal.min_by_key(|(set, _)| set_of(set)).expect("one of them");
        Exposure { prices: highest_on(self.grid.limits.len(), &set), least: worst, most: worst }
    }

    /// The overloaded constraint of the largest excess, of equals the lowest.
    pub fn largest(&self, over: &[usize]) -> usize {
        let excess = over.iter().map(|&k| self.excess(k)).max().expect("one is overloaded");
        *over.iter().find(|&&k| self.excess(k) == excess).expect("it is one of theirs")
    }

    /// Where many are: all of them or the one of the largest excess, whichever costs more, all on a tie; at most every excess.
    fn bracket(&self, over: &[usize]) -> Exposure {
        let (all, one) = (self.at_highest(over), [self.largest(over)]);
        let alone = self.at_highest(&one);
        let (set, least) = if all >= alone { (over, all) } else { (&one[..], alone) };
        let most = over.iter().map(|&k| self.excess(k)).sum::<i128>() * HIGHEST_PRICE;
        Exposure { prices: highest_on(self.grid.limits.len(), set), least, most }
    }

    pub fn exposure(&self) -> Exposure {
        let over = self.over();
        if over.len() <= FEW {
            self.exact(self.by_carrying(&over))
        } else {
            self.bracket(&over)
        }
    }
}

/// 9 where the place for the prices has fewer cells than there are constraints.
pub fn placed(found: &Answer<Exposure>, room: usize) -> Answer<Exposure> {
    let found = found.clone()?;
    first(&[(room < found.prices.len(), 9)])?;
    Ok(found)
}
