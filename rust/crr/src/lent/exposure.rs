//! What a book costs at any prices, and at worst.

mod c {
    extern "C" {
        pub fn crr_find_shortfall(
            nodes: usize,
            constraints: usize,
            process: u64,
            period: u64,
            limits: *const u64,
            limits_len: usize,
            factors: *const i64,
            factors_len: usize,
            prices: *const u64,
            prices_len: usize,
            book: *const u8,
            book_len: usize,
            payment_whole: *mut i64,
            payment_parts: *mut u64,
            rent_whole: *mut i64,
            rent_parts: *mut u64,
            shortfall_whole: *mut i64,
            shortfall_parts: *mut u64,
        ) -> u64;
        pub fn crr_find_exposure(
            nodes: usize,
            constraints: usize,
            process: u64,
            period: u64,
            limits: *const u64,
            limits_len: usize,
            factors: *const i64,
            factors_len: usize,
            book: *const u8,
            book_len: usize,
            prices: *mut u64,
            prices_len: usize,
            least_whole: *mut i64,
            least_parts: *mut u64,
            most_whole: *mut i64,
            most_parts: *mut u64,
        ) -> u64;
    }
}

#[allow(clippy::too_many_arguments)]
pub fn find_shortfall(
    nodes: usize,
    constraints: usize,
    process: u64,
    period: u64,
    limits: &[u64],
    factors: &[i64],
    prices: &[u64],
    book: &[u8],
    payment_whole: &mut i64,
    payment_parts: &mut u64,
    rent_whole: &mut i64,
    rent_parts: &mut u64,
    shortfall_whole: &mut i64,
    shortfall_parts: &mut u64,
) -> u64 {
    unsafe {
        c::crr_find_shortfall(
            nodes,
            constraints,
            process,
            period,
            limits.as_ptr(),
            limits.len(),
            factors.as_ptr(),
            factors.len(),
            prices.as_ptr(),
            prices.len(),
            book.as_ptr(),
            book.len(),
            payment_whole,
            payment_parts,
            rent_whole,
            rent_parts,
            shortfall_whole,
            shortfall_parts,
        )
    }
}

#[allow(clippy::too_many_arguments)]
pub fn find_exposure(
    nodes: usize,
    constraints: usize,
    process: u64,
    period: u64,
    limits: &[u64],
    factors: &[i64],
    book: &[u8],
    prices: &mut [u64],
    least_whole: &mut i64,
    least_parts: &mut u64,
    most_whole: &mut i64,
    most_parts: &mut u64,
) -> u64 {
    unsafe {
        c::crr_find_exposure(
            nodes,
            constraints,
            process,
            period,
            limits.as_ptr(),
            limits.len(),
            factors.as_ptr(),
            factors.len(),
            book.as_ptr(),
            book.len(),
            prices.as_mut_ptr(),
            prices.len(),
            least_whole,
            least_parts,
            most_whole,
            most_parts,
        )
    }
}
