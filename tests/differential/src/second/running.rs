//! Paper 4, the running test: the awards held, in their order, and of each tier how many were held when it was marked. Flows, counts and verdict are worked
//! out afresh from these at every moment.

use super::book::Contract;
use super::grid::{by_node, Grid};
use super::test::{flow, of_period, overloaded, released};
use super::{cells, constraints_fail, first, limit_fails, nodes_fail, Answer};
use crate::library::{Opening, State};

/// Cells of the three buffers: a row for each of 1,000 awards; the two counts and three cells for each tier; a flow for each of 64 constraints, now and at each
/// tier's mark.
pub const AWARDS: usize = 6 * 1000;
pub const NUMBERS: usize = 2 + 3 * TIERS;
pub const FLOWS: usize = 64 * (1 + TIERS);
/// 1, 2, 3 and LT, given as 4.
pub const TIERS: usize = 4;

/// A running test for one grid, process and period.
#[derive(Clone)]
pub struct Running {
    pub grid: Grid,
    pub process: u64,
    pub period: u64,
    pub awards: Vec<Contract>,
    /// Of tier i in place i - 1.
    pub marks: [Option<usize>; TIERS],
}

fn short(state: &State) -> bool {
    state.awards.len() < AWARDS || marks_short(state)
}

fn marks_short(state: &State) -> bool {
    state.numbers.len() < NUMBERS || state.flows.len() < FLOWS
}

/// The test's checks up to 7: 2, 3, 16, 17, 9 with that of the other buffers, 6, 7.
fn checked(opening: &Opening, short: bool) -> Answer<Grid> {
    let (nodes, constraints) = (opening.nodes as i128, opening.constraints as i128);
    first(&[(nodes_fail(nodes), 2), (constraints_fail(constraints), 3), (opening.process > 2, 16), (opening.period > 1, 17), (short, 9)])?;
    let limits = cells(opening.limits, constraints)?;
    let table = cells(opening.factors, nodes * constraints)?;
    first(&[(limits.iter().any(|&limit| limit_fails(limit)), 6)])?;
    let factors = by_node(nodes, constraints, &table)?;
    Ok(Grid { nodes, constraints, limits, factors })
}

/// The award's fields, as the book's writer checks them: 17, 18, 11, 13.
fn award_of(row: &[u64], nodes: i128) -> Answer<Contract> {
    let [kind, period, holder, source, sink, quantity] = [0, 1, 2, 3, 4, 5].map(|at| i128::from(row[at]));
    first(&[
        (kind > 1 || period > 1, 17),
        (holder > 1023, 18),
        (source >= nodes || sink >= nodes, 11),
        (quantity == 0 || quantity > 1_000_000, 13),
    ])?;
    Ok(Contract { kind, period, holder, source, sink, quantity })
}

/// 20 for any other tier than 1 to 4; its place otherwise.
fn place(tier: u64) -> Answer<usize> {
    first(&[(tier < 1 || tier > TIERS as u64, 20)])?;
    Ok(tier as usize - 1)
}

impl Running {
    /// Nothing held and nothing marked, in cells of 0.
    pub fn open(opening: &Opening, state: &mut State) -> Answer<Self> {
        let grid = checked(opening, short(state))?;
        state.numbers[..NUMBERS].fill(0);
        state.flows[..FLOWS].fill(0);
        Ok(Running { grid, process: opening.process, period: opening.period, awards: Vec::new(), marks: [None; TIERS] })
    }

    /// The period's, of the first so many awards.
    pub fn counted(&self, held: usize) -> Vec<Contract> {
        of_period(&self.awards[..held], self.period)
    }

    /// The checks up to 7, 10 for a 1,001st, the fields, and 21 where some flow would exceed its released limit. What is handed in is the opening's, or refused.
    pub fn add(&mut self, opening: &Opening, row: &[u64], state: &mut State) -> Answer<()> {
        checked(opening, row.len() < 6 || short(state))?;
        first(&[(self.awards.len() + 1 > 1000, 10)])?;
        let award = award_of(row, self.grid.nodes)?;
        let with = [&self.awards[..], &[award]].concat();
        first(&[(!overloaded(&self.grid, self.process, &of_period(&with, self.period)).is_empty(), 21)])?;
        self.awards = with;
        self.show(state);
        Ok(())
    }

    /// Marking again moves the mark.
    pub fn mark(&mut self, tier: u64, state: &mut State) -> Answer<()> {
        first(&[(marks_short(state), 9)])?;
        self.marks[place(tier)?] = Some(self.awards.len());
        self.show(state);
        Ok(())
    }

    /// Drops later awards, and the marks made when more awards were held.
    pub fn return_to(&mut self, tier: u64, state: &mut State) -> Answer<()> {
        first(&[(marks_short(state), 9)])?;
        let held = self.marks[place(tier)?].ok_or(20u64)?;
        self.awards.truncate(held);
        for mark in &mut self.marks {
            *mark = mark.filter(|&at| at <= held);
        }
        self.show(state);
        Ok(())
    }

    /// Writes the cells that say something, all of them afresh: rows of awards held, counts, flags, and flows of the constraints that the grid has.
    fn show(&self, state: &mut State) {
        for (cells, award) in state.awards.chunks_mut(6).zip(&self.awards) {
            cells.copy_from_slice(&award.row().map(|value| value as u64));
        }
        state.numbers[0] = self.awards.len() as u64;
        self.block(self.awards.len(), &mut state.numbers[1], &mut state.flows[..64]);
        for (tier, mark) in (1..).zip(self.marks) {
            state.numbers[3 * tier - 1] = u64::from(mark.is_some());
            if let Some(held) = mark {
                state.numbers[3 * tier] = held as u64;
                self.block(held, &mut state.numbers[3 * tier + 1], &mut state.flows[64 * tier..64 * tier + 64]);
            }
        }
    }

    /// The count and the flows over the first so many awards; 0 for constraints that the grid has not.
    fn block(&self, held: usize, count: &mut u64, flows: &mut [i64]) {
        let counted = self.counted(held);
        *count = counted.len() as u64;
        flows.fill(0);
        for (k, cell) in flows.iter_mut().enumerate().take(self.grid.limits.len()) {
            *cell = flow(&self.grid, &counted, k) as i64;
        }
    }
}

/// Adding by the cells alone, whoever wrote them. 10 and 21 as they say, 21 also where no run gives such cells: a count above the number held, or a flow beyond
/// what so many awards can have.
pub fn add_by_cells(opening: &Opening, row: &[u64], state: &mut State) -> Answer<()> {
    let grid = checked(opening, row.len() < 6 || short(state))?;
    let (held, counted) = (i128::from(state.numbers[0]), i128::from(state.numbers[1]));
    first(&[(held >= 1000, 10)])?;
    let award = award_of(row, grid.nodes)?;
    if award.period == opening.period.into() {
        let flows: Vec<i128> = state.flows[..opening.constraints].iter().map(|&flow| flow.into()).collect();
        let beyond = flows.iter().any(|flow| flow.abs() > 200_000_000_000 * counted);
        first(&[(counted > held || beyond, 21)])?;
        let with: Vec<i128> = flows.iter().enumerate().map(|(k, had)| had + flow(&grid, &[award], k)).collect();
        first(&[(with.iter().enumerate().any(|(k, &flow)| flow > released(&grid, opening.process, k)), 21)])?;
        for (cell, flow) in state.flows.iter_mut().zip(with) {
            *cell = flow as i64;
        }
        state.numbers[1] += 1;
    }
    state.numbers[0] += 1;
    state.awards[6 * held as usize..][..6].copy_from_slice(&row[..6]);
    Ok(())
}

/// Marking by the cells alone.
pub fn mark_by_cells(tier: u64, state: &mut State) -> Answer<()> {
    first(&[(marks_short(state), 9)])?;
    let tier = place(tier)? + 1;
    let (held, counted) = (state.numbers[0], state.numbers[1]);
    state.numbers[3 * tier - 1..3 * tier + 2].copy_from_slice(&[1, held, counted]);
    state.flows.copy_within(..64, 64 * tier);
    Ok(())
}

/// Returning by the cells alone: a flag of 0 is an unset mark, and every mark at more than this one's number is unset.
pub fn return_by_cells(tier: u64, state: &mut State) -> Answer<()> {
    first(&[(marks_short(state), 9)])?;
    let tier = place(tier)? + 1;
    first(&[(state.numbers[3 * tier - 1] == 0, 20)])?;
    let held = state.numbers[3 * tier];
    (state.numbers[0], state.numbers[1]) = (held, state.numbers[3 * tier + 1]);
    state.flows.copy_within(64 * tier..64 * tier + 64, 0);
    for other in (1..=TIERS).filter(|other| state.numbers[3 * other] > held).collect::<Vec<_>>() {
        state.numbers[3 * other - 1] = 0;
    }
    Ok(())
}
