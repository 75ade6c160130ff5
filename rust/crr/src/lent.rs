//! The C interface as include/crr.h has it, with slices for pointers and lengths. Buffers and figures are lent: on a refusal none has
//! changed. Each function gives the refusal's number, 0 for none, and is what the header says of the C function of its name.
//!
//! [`check_interface`](crate::check_interface) is not called here: a program that uses these functions alone calls it once.

mod exposure;
mod hubs;
mod migration;
mod running;
mod totals;

pub use exposure::{find_exposure, find_shortfall};
pub use hubs::{add_hub_contract, find_hub_mcc};
pub use migration::{migrate_load, net_transfers, Migration};
pub use running::{add_award, mark_tier, open_running, return_to_tier, Opening, State};
pub use totals::{add_flows, judge_flows};

mod c {
    extern "C" {
        pub fn crr_interface() -> u64;
        pub fn crr_refusal_text(number: u64, text: *mut u8, text_len: usize, bytes: *mut usize) -> u64;
        pub fn crr_read_grid(
            file: *const u8,
            file_len: usize,
            limits: *mut u64,
            limits_len: usize,
            factors: *mut i64,
            factors_len: usize,
            nodes: *mut usize,
            constraints: *mut usize,
            form: *mut u64,
        ) -> u64;
        pub fn crr_write_grid(
            form: u64,
            nodes: usize,
            constraints: usize,
            limits: *const u64,
            limits_len: usize,
            factors: *const i64,
            factors_len: usize,
            file: *mut u8,
            file_len: usize,
            bytes: *mut usize,
        ) -> u64;
        pub fn crr_read_book(
            nodes: usize,
            file: *const u8,
            file_len: usize,
            book: *mut u64,
            book_len: usize,
            contracts: *mut usize,
            form: *mut u64,
        ) -> u64;
        pub fn crr_write_book(
            form: u64,
            nodes: usize,
            contracts: usize,
            book: *const u64,
            book_len: usize,
            file: *mut u8,
            file_len: usize,
            bytes: *mut usize,
        ) -> u64;
        pub fn crr_remap_book(
            nodes: usize,
            book: *const u8,
            book_len: usize,
            old_nodes: *const u64,
            old_len: usize,
            new_nodes: *const u64,
            new_len: usize,
            file: *mut u8,
            file_len: usize,
            bytes: *mut usize,
        ) -> u64;
        pub fn crr_write_market_view(
            nodes: usize,
            book: *const u8,
            book_len: usize,
            file: *mut u8,
            file_len: usize,
            bytes: *mut usize,
        ) -> u64;
        pub fn crr_write_holder_view(
            nodes: usize,
            book: *const u8,
            book_len: usize,
            holder: u64,
            view: *mut u8,
            view_len: usize,
            bytes: *mut usize,
        ) -> u64;
        pub fn crr_write_canonical_book(
            nodes: usize,
            book: *const u8,
            book_len: usize,
            file: *mut u8,
            file_len: usize,
            bytes: *mut usize,
        ) -> u64;
        pub fn crr_read_prices(
            constraints: usize,
            file: *const u8,
            file_len: usize,
            prices: *mut u64,
            prices_len: usize,
            period: *mut u64,
        ) -> u64;
        pub fn crr_write_prices(
            period: u64,
            constraints: usize,
            prices: *const u64,
            prices_len: usize,
            file: *mut u8,
            file_len: usize,
            bytes: *mut usize,
        ) -> u64;
        pub fn crr_test_book(
            nodes: usize,
            constraints: usize,
            process: u64,
            period: u64,
            limits: *const u64,
            limits_len: usize,
            factors: *const i64,
            factors_len: usize,
            book: *const u8,
            book_len: usize,
            set: *mut u64,
            count: *mut usize,
            lowest: *mut usize,
            excess: *mut i64,
        ) -> u64;
        pub fn crr_find_flows(
            nodes: usize,
            constraints: usize,
            period: u64,
            limits: *const u64,
            limits_len: usize,
            factors: *const i64,
            factors_len: usize,
            book: *const u8,
            book_len: usize,
            flows: *mut i64,
            flows_len: usize,
            counted: *mut usize,
        ) -> u64;
        pub fn crr_find_cuts(
            nodes: usize,
            constraints: usize,
            process: u64,
            period: u64,
            limits: *const u64,
            limits_len: usize,
            factors: *const i64,
            factors_len: usize,
            book: *const u8,
            book_len: usize,
            numbers: *mut u64,
            numbers_len: usize,
            cuts: *mut u64,
            cuts_len: usize,
            listed: *mut usize,
        ) -> u64;
        pub fn crr_released_percent(process: u64, percent: *mut u64) -> u64;
        pub fn crr_find_mcc(
            nodes: usize,
            constraints: usize,
            factors: *const i64,
            factors_len: usize,
            prices: *const u64,
            prices_len: usize,
            mcc: *mut i64,
            mcc_len: usize,
        ) -> u64;
        pub fn crr_settle_hour(
            nodes: usize,
            constraints: usize,
            period: u64,
            factors: *const i64,
            factors_len: usize,
            prices: *const u64,
            prices_len: usize,
            book: *const u8,
            book_len: usize,
            cents: *mut i64,
            cents_len: usize,
            priced: *mut u64,
            priced_len: usize,
            sum: *mut i64,
            whole: *mut i64,
            parts: *mut u64,
        ) -> u64;
        pub fn crr_share_balance(balance: i64, demands: *const u64, demands_len: usize, shares: *mut i64, shares_len: usize) -> u64;
        pub fn crr_write_report(
            grid_file: *const u8,
            grid_file_len: usize,
            book_file: *const u8,
            book_file_len: usize,
            text: *mut u8,
            text_len: usize,
            bytes: *mut usize,
        ) -> u64;
        pub fn crr_write_statement(
            grid_file: *const u8,
            grid_file_len: usize,
            book_file: *const u8,
            book_file_len: usize,
            price_file: *const u8,
            price_file_len: usize,
            text: *mut u8,
            text_len: usize,
            bytes: *mut usize,
        ) -> u64;
        pub fn crr_month_hours(year: u64, month: u64, hours: *mut u64) -> u64;
        pub fn crr_hour_period(year: u64, month: u64, day: u64, hour_ending: u64, period: *mut u64) -> u64;
        pub fn crr_weekday(year: u64, month: u64, day: u64, weekday: *mut u64) -> u64;
        pub fn crr_month_later(year: u64, month: u64, day: u64, later_year: *mut u64, later_month: *mut u64, later_day: *mut u64) -> u64;
    }
}

/// The number of the interface that the library has: no refusal.
pub fn interface() -> u64 {
    unsafe { c::crr_interface() }
}

pub fn refusal_text(number: u64, text: &mut [u8], bytes: &mut usize) -> u64 {
    unsafe { c::crr_refusal_text(number, text.as_mut_ptr(), text.len(), bytes) }
}

pub fn read_grid(file: &[u8], limits: &mut [u64], factors: &mut [i64], nodes: &mut usize, constraints: &mut usize, form: &mut u64) -> u64 {
    unsafe {
        c::crr_read_grid(
            file.as_ptr(),
            file.len(),
            limits.as_mut_ptr(),
            limits.len(),
            factors.as_mut_ptr(),
            factors.len(),
            nodes,
            constraints,
            form,
        )
    }
}

pub fn write_grid(form: u64, nodes: usize, constraints: usize, limits: &[u64], factors: &[i64], file: &mut [u8], bytes: &mut usize) -> u64 {
    unsafe {
        c::crr_write_grid(
            form,
            nodes,
            constraints,
            limits.as_ptr(),
            limits.len(),
            factors.as_ptr(),
            factors.len(),
            file.as_mut_ptr(),
            file.len(),
            bytes,
        )
    }
}

pub fn read_book(nodes: usize, file: &[u8], book: &mut [u64], contracts: &mut usize, form: &mut u64) -> u64 {
    unsafe { c::crr_read_book(nodes, file.as_ptr(), file.len(), book.as_mut_ptr(), book.len(), contracts, form) }
}

pub fn write_book(form: u64, nodes: usize, contracts: usize, book: &[u64], file: &mut [u8], bytes: &mut usize) -> u64 {
    unsafe { c::crr_write_book(form, nodes, contracts, book.as_ptr(), book.len(), file.as_mut_ptr(), file.len(), bytes) }
}

pub fn remap_book(nodes: usize, book: &[u8], old: &[u64], new: &[u64], file: &mut [u8], bytes: &mut usize) -> u64 {
    unsafe {
        c::crr_remap_book(
            nodes,
            book.as_ptr(),
            book.len(),
            old.as_ptr(),
            old.len(),
            new.as_ptr(),
            new.len(),
            file.as_mut_ptr(),
            file.len(),
            bytes,
        )
    }
}

pub fn write_market_view(nodes: usize, book: &[u8], file: &mut [u8], bytes: &mut usize) -> u64 {
    unsafe { c::crr_write_market_view(nodes, book.as_ptr(), book.len(), file.as_mut_ptr(), file.len(), bytes) }
}

pub fn write_holder_view(nodes: usize, book: &[u8], holder: u64, view: &mut [u8], bytes: &mut usize) -> u64 {
    unsafe { c::crr_write_holder_view(nodes, book.as_ptr(), book.len(), holder, view.as_mut_ptr(), view.len(), bytes) }
}

pub fn write_canonical_book(nodes: usize, book: &[u8], file: &mut [u8], bytes: &mut usize) -> u64 {
    unsafe { c::crr_write_canonical_book(nodes, book.as_ptr(), book.len(), file.as_mut_ptr(), file.len(), bytes) }
}

pub fn read_prices(constraints: usize, file: &[u8], prices: &mut [u64], period: &mut u64) -> u64 {
    unsafe { c::crr_read_prices(constraints, file.as_ptr(), file.len(), prices.as_mut_ptr(), prices.len(), period) }
}

pub fn write_prices(period: u64, constraints: usize, prices: &[u64], file: &mut [u8], bytes: &mut usize) -> u64 {
    unsafe { c::crr_write_prices(period, constraints, prices.as_ptr(), prices.len(), file.as_mut_ptr(), file.len(), bytes) }
}

#[allow(clippy::too_many_arguments)]
pub fn test_book(
    nodes: usize,
    constraints: usize,
    process: u64,
    period: u64,
    limits: &[u64],
    factors: &[i64],
    book: &[u8],
    set: &mut u64,
    count: &mut usize,
    lowest: &mut usize,
    excess: &mut i64,
) -> u64 {
    unsafe {
        c::crr_test_book(
            nodes,
            constraints,
            process,
            period,
            limits.as_ptr(),
            limits.len(),
            factors.as_ptr(),
            factors.len(),
            book.as_ptr(),
            book.len(),
            set,
            count,
            lowest,
            excess,
        )
    }
}

#[allow(clippy::too_many_arguments)]
pub fn find_flows(
    nodes: usize,
    constraints: usize,
    period: u64,
    limits: &[u64],
    factors: &[i64],
    book: &[u8],
    flows: &mut [i64],
    counted: &mut usize,
) -> u64 {
    unsafe {
        c::crr_find_flows(
            nodes,
            constraints,
            period,
            limits.as_ptr(),
            limits.len(),
            factors.as_ptr(),
            factors.len(),
            book.as_ptr(),
            book.len(),
            flows.as_mut_ptr(),
            flows.len(),
            counted,
        )
    }
}

#[allow(clippy::too_many_arguments)]
pub fn find_cuts(
    nodes: usize,
    constraints: usize,
    process: u64,
    period: u64,
    limits: &[u64],
    factors: &[i64],
    book: &[u8],
    numbers: &mut [u64],
    cuts: &mut [u64],
    listed: &mut usize,
) -> u64 {
    unsafe {
        c::crr_find_cuts(
            nodes,
            constraints,
            process,
            period,
            limits.as_ptr(),
            limits.len(),
            factors.as_ptr(),
            factors.len(),
            book.as_ptr(),
            book.len(),
            numbers.as_mut_ptr(),
            numbers.len(),
            cuts.as_mut_ptr(),
            cuts.len(),
            listed,
        )
    }
}

pub fn released_percent(process: u64, percent: &mut u64) -> u64 {
    unsafe { c::crr_released_percent(process, percent) }
}

pub fn find_mcc(nodes: usize, constraints: usize, factors: &[i64], prices: &[u64], mcc: &mut [i64]) -> u64 {
    unsafe {
        c::crr_find_mcc(nodes, constraints, factors.as_ptr(), factors.len(), prices.as_ptr(), prices.len(), mcc.as_mut_ptr(), mcc.len())
    }
}

#[allow(clippy::too_many_arguments)]
pub fn settle_hour(
    nodes: usize,
    constraints: usize,
    period: u64,
    factors: &[i64],
    prices: &[u64],
    book: &[u8],
    cents: &mut [i64],
    priced: &mut [u64],
    sum: &mut i64,
    whole: &mut i64,
    parts: &mut u64,
) -> u64 {
    unsafe {
        c::crr_settle_hour(
            nodes,
            constraints,
            period,
            factors.as_ptr(),
            factors.len(),
            prices.as_ptr(),
            prices.len(),
            book.as_ptr(),
            book.len(),
            cents.as_mut_ptr(),
            cents.len(),
            priced.as_mut_ptr(),
            priced.len(),
            sum,
            whole,
            parts,
        )
    }
}

pub fn share_balance(balance: i64, demands: &[u64], shares: &mut [i64]) -> u64 {
    unsafe { c::crr_share_balance(balance, demands.as_ptr(), demands.len(), shares.as_mut_ptr(), shares.len()) }
}

pub fn write_report(grid_file: &[u8], book_file: &[u8], text: &mut [u8], bytes: &mut usize) -> u64 {
    unsafe {
        c::crr_write_report(grid_file.as_ptr(), grid_file.len(), book_file.as_ptr(), book_file.len(), text.as_mut_ptr(), text.len(), bytes)
    }
}

pub fn write_statement(grid_file: &[u8], book_file: &[u8], price_file: &[u8], text: &mut [u8], bytes: &mut usize) -> u64 {
    unsafe {
        c::crr_write_statement(
            grid_file.as_ptr(),
            grid_file.len(),
            book_file.as_ptr(),
            book_file.len(),
            price_file.as_ptr(),
            price_file.len(),
            text.as_mut_ptr(),
            text.len(),
            bytes,
        )
    }
}

pub fn month_hours(year: u64, month: u64, hours: &mut u64) -> u64 {
    unsafe { c::crr_month_hours(year, month, hours) }
}

pub fn hour_period(year: u64, month: u64, day: u64, hour_ending: u64, period: &mut u64) -> u64 {
    unsafe { c::crr_hour_period(year, month, day, hour_ending, period) }
}

pub fn weekday(year: u64, month: u64, day: u64, weekday: &mut u64) -> u64 {
    unsafe { c::crr_weekday(year, month, day, weekday) }
}

pub fn month_later(year: u64, month: u64, day: u64, later_year: &mut u64, later_month: &mut u64, later_day: &mut u64) -> u64 {
    unsafe { c::crr_month_later(year, month, day, later_year, later_month, later_day) }
}
