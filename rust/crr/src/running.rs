//! The running test.

use crate::grids::Grid;
use crate::lent::{self, Opening, State};
use crate::refused::{answered, Refused};
use crate::sizes::{RUNNING_AWARDS, RUNNING_FLOWS, RUNNING_NUMBERS};
use crate::terms::{Contract, Period, Process, Tier};

/// A running test: awards tried one after another on a grid, with tiers to come back to.
#[derive(Clone, Debug)]
pub struct Running<'a> {
    grid: &'a Grid,
    process: Process,
    period: Period,
    awards: Vec<u64>,
    numbers: Vec<u64>,
    flows: Vec<i64>,
}

impl<'a> Running<'a> {
    /// Opens a running test on a grid, for a process and a period: no award is held and no tier is marked.
    pub fn open(grid: &'a Grid, process: Process, period: Period) -> Result<Running<'a>, Refused> {
        let (awards, numbers, flows) = (vec![0; RUNNING_AWARDS], vec![0; RUNNING_NUMBERS], vec![0; RUNNING_FLOWS]);
        let mut running = Running { grid, process, period, awards, numbers, flows };
        running.call(lent::open_running)?;
        Ok(running)
    }

    fn call(&mut self, entry: impl FnOnce(&Opening, &mut State) -> u64) -> Result<(), Refused> {
        let Grid { nodes, constraints, limits, factors, .. } = self.grid;
        let (process, period) = (self.process as u64, self.period as u64);
        let opening = Opening { nodes: *nodes, constraints: *constraints, process, period, limits, factors };
        let mut state = State { awards: &mut self.awards, numbers: &mut self.numbers, flows: &mut self.flows };
        answered(|| entry(&opening, &mut state))
    }

    /// Adds an award where every flow stays within its released limit; [`Refused::AWARD_OVERLOAD`] where one would not.
    pub fn add(&mut self, award: Contract) -> Result<(), Refused> {
        self.call(|opening, state| lent::add_award(opening, &award.row(), state))
    }

    /// Marks a tier at the awards held now.
    pub fn mark(&mut self, tier: Tier) -> Result<(), Refused> {
        self.call(|_, state| lent::mark_tier(tier as u64, state))
    }

    /// Returns to a marked tier: the awards added since are dropped.
    pub fn return_to(&mut self, tier: Tier) -> Result<(), Refused> {
        self.call(|_, state| lent::return_to_tier(tier as u64, state))
    }

    /// The awards held, in their order.
    pub fn awards(&self) -> Vec<Contract> {
        self.awards.chunks(6).take(self.numbers[0] as usize).map(Contract::from_row).collect()
    }

    /// The flow of the awards held on each constraint, in 10^-8 MW.
    pub fn flows(&self) -> &[i64] {
        &self.flows[..self.grid.constraints]
    }
}
