//! Running totals of flows: the steps of a test of any size.

mod c {
    extern "C" {
        pub fn crr_add_flows(
            nodes: usize,
            constraints: usize,
            period: u64,
            limits: *const u64,
            limits_len: usize,
            factors: *const i64,
            factors_len: usize,
            book: *const u8,
            book_len: usize,
            flows: *mut i64,
            flows_len: usize,
            count: *mut usize,
            counted: *mut usize,
        ) -> u64;
        pub fn crr_judge_flows(
            constraints: usize,
            process: u64,
            limits: *const u64,
            limits_len: usize,
            flows: *const i64,
            flows_len: usize,
            summed: usize,
            set: *mut u64,
            count: *mut usize,
            lowest: *mut usize,
            excess: *mut i64,
        ) -> u64;
    }
}

#[allow(clippy::too_many_arguments)]
pub fn add_flows(
    nodes: usize,
    constraints: usize,
    period: u64,
    limits: &[u64],
    factors: &[i64],
    book: &[u8],
    flows: &mut [i64],
    count: &mut usize,
    counted: &mut usize,
) -> u64 {
    unsafe {
        c::crr_add_flows(
            nodes,
            constraints,
            period,
            limits.as_ptr(),
            limits.len(),
            factors.as_ptr(),
            factors.len(),
            book.as_ptr(),
            book.len(),
            flows.as_mut_ptr(),
            flows.len(),
            count,
            counted,
        )
    }
}

#[allow(clippy::too_many_arguments)]
pub fn judge_flows(
    constraints: usize,
    process: u64,
    limits: &[u64],
    flows: &[i64],
    summed: usize,
    set: &mut u64,
    count: &mut usize,
    lowest: &mut usize,
    excess: &mut i64,
) -> u64 {
    unsafe {
        c::crr_judge_flows(
            constraints,
            process,
            limits.as_ptr(),
            limits.len(),
            flows.as_ptr(),
            flows.len(),
            summed,
            set,
            count,
            lowest,
            excess,
        )
    }
}
