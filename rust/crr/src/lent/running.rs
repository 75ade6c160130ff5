//! The running test.

mod c {
    extern "C" {
        pub fn crr_open_running(
            nodes: usize,
            constraints: usize,
            process: u64,
            period: u64,
            limits: *const u64,
            limits_len: usize,
            factors: *const i64,
            factors_len: usize,
            awards: *const u64,
            awards_len: usize,
            numbers: *mut u64,
            numbers_len: usize,
            flows: *mut i64,
            flows_len: usize,
        ) -> u64;
        pub fn crr_add_award(
            nodes: usize,
            constraints: usize,
            process: u64,
            period: u64,
            limits: *const u64,
            limits_len: usize,
            factors: *const i64,
            factors_len: usize,
            award: *const u64,
            award_len: usize,
            awards: *mut u64,
            awards_len: usize,
            numbers: *mut u64,
            numbers_len: usize,
            flows: *mut i64,
            flows_len: usize,
        ) -> u64;
        pub fn crr_mark_tier(tier: u64, numbers: *mut u64, numbers_len: usize, flows: *mut i64, flows_len: usize) -> u64;
        pub fn crr_return_to_tier(tier: u64, numbers: *mut u64, numbers_len: usize, flows: *mut i64, flows_len: usize) -> u64;
    }
}

/// What a running test is opened on.
#[derive(Clone, Copy)]
pub struct Opening<'a> {
    pub nodes: usize,
    pub constraints: usize,
    pub process: u64,
    pub period: u64,
    pub limits: &'a [u64],
    pub factors: &'a [i64],
}

/// The three buffers of a running test.
pub struct State<'a> {
    pub awards: &'a mut [u64],
    pub numbers: &'a mut [u64],
    pub flows: &'a mut [i64],
}

pub fn open_running(opening: &Opening, state: &mut State) -> u64 {
    unsafe {
        c::crr_open_running(
            opening.nodes,
            opening.constraints,
            opening.process,
            opening.period,
            opening.limits.as_ptr(),
            opening.limits.len(),
            opening.factors.as_ptr(),
            opening.factors.len(),
            state.awards.as_ptr(),
            state.awards.len(),
            state.numbers.as_mut_ptr(),
            state.numbers.len(),
            state.flows.as_mut_ptr(),
            state.flows.len(),
        )
    }
}

pub fn add_award(opening: &Opening, award: &[u64], state: &mut State) -> u64 {
    unsafe {
        c::crr_add_award(
            opening.nodes,
            opening.constraints,
            opening.process,
            opening.period,
            opening.limits.as_ptr(),
            opening.limits.len(),
            opening.factors.as_ptr(),
            opening.factors.len(),
            award.as_ptr(),
            award.len(),
            state.awards.as_mut_ptr(),
            state.awards.len(),
            state.numbers.as_mut_ptr(),
            state.numbers.len(),
            state.flows.as_mut_ptr(),
            state.flows.len(),
        )
    }
}

pub fn mark_tier(tier: u64, state: &mut State) -> u64 {
    let State { numbers, flows, .. } = state;
    unsafe { c::crr_mark_tier(tier, numbers.as_mut_ptr(), numbers.len(), flows.as_mut_ptr(), flows.len()) }
}

pub fn return_to_tier(tier: u64, state: &mut State) -> u64 {
    let State { numbers, flows, .. } = state;
    unsafe { c::crr_return_to_tier(tier, numbers.as_mut_ptr(), numbers.len(), flows.as_mut_ptr(), flows.len()) }
}
