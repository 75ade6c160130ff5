//! The flow on each constraint, and the released share of a process.

use super::test::{checked, flow, Asked, RELEASED};
use super::{first, Answer};

/// The flow of the period's contracts on each constraint, and how many they are. No process is asked for: the one given is 0 to 2.
#[derive(PartialEq)]
pub struct Flows {
    pub flows: Vec<i128>,
    pub counted: i128,
}

/// The test's checks, then 9 where there are fewer cells than constraints.
pub fn find_flows(asked: &Asked, room: usize) -> Answer<Flows> {
    let (grid, contracts) = checked(asked)?;
    first(&[(room < asked.constraints, 9)])?;
    let flows = (0..asked.constraints).map(|k| flow(&grid, &contracts, k)).collect();
    Ok(Flows { flows, counted: contracts.len() as i128 })
}

/// 16 for any other number than 0 to 2.
pub fn released_percent(process: u64) -> Answer<i128> {
    first(&[(process > 2, 16)])?;
    Ok(RELEASED[process as usize])
}
