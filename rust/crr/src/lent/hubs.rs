//! Trading hubs.

mod c {
    extern "C" {
        pub fn crr_add_hub_contract(
            nodes: usize,
            book: *const u8,
            book_len: usize,
            kind: u64,
            period: u64,
            holder: u64,
            hub_nodes: *const u64,
            hub_nodes_len: usize,
            hub_weights: *const u64,
            hub_weights_len: usize,
            sink: u64,
            quantity: u64,
            file: *mut u8,
            file_len: usize,
            bytes: *mut usize,
        ) -> u64;
        pub fn crr_find_hub_mcc(
            nodes: usize,
            constraints: usize,
            factors: *const i64,
            factors_len: usize,
            prices: *const u64,
            prices_len: usize,
            hub_nodes: *const u64,
            hub_nodes_len: usize,
            hub_weights: *const u64,
            hub_weights_len: usize,
            quotient: *mut i64,
            remainder: *mut u64,
        ) -> u64;
    }
}

#[allow(clippy::too_many_arguments)]
pub fn add_hub_contract(
    nodes: usize,
    book: &[u8],
    kind: u64,
    period: u64,
    holder: u64,
    hub_nodes: &[u64],
    hub_weights: &[u64],
    sink: u64,
    quantity: u64,
    file: &mut [u8],
    bytes: &mut usize,
) -> u64 {
    unsafe {
        c::crr_add_hub_contract(
            nodes,
            book.as_ptr(),
            book.len(),
            kind,
            period,
            holder,
            hub_nodes.as_ptr(),
            hub_nodes.len(),
            hub_weights.as_ptr(),
            hub_weights.len(),
            sink,
            quantity,
            file.as_mut_ptr(),
            file.len(),
            bytes,
        )
    }
}

#[allow(clippy::too_many_arguments)]
pub fn find_hub_mcc(
    nodes: usize,
    constraints: usize,
    factors: &[i64],
    prices: &[u64],
    hub_nodes: &[u64],
    hub_weights: &[u64],
    quotient: &mut i64,
    remainder: &mut u64,
) -> u64 {
    unsafe {
        c::crr_find_hub_mcc(
            nodes,
            constraints,
            factors.as_ptr(),
            factors.len(),
            prices.as_ptr(),
            prices.len(),
            hub_nodes.as_ptr(),
            hub_nodes.len(),
            hub_weights.as_ptr(),
            hub_weights.len(),
            quotient,
            remainder,
        )
    }
}
