//! Load migration.

mod c {
    extern "C" {
        pub fn crr_migrate_load(
            nodes: usize,
            period: u64,
            book: *const u8,
            book_len: usize,
            classes: *const u8,
            classes_len: usize,
            customers: *const u64,
            customers_len: usize,
            rates: *const u64,
            rates_len: usize,
            olds: *const u64,
            olds_len: usize,
            news: *const u64,
            news_len: usize,
            loads: *const u64,
            loads_len: usize,
            file: *mut u8,
            file_len: usize,
            bytes: *mut usize,
        ) -> u64;
        pub fn crr_net_transfers(
            lses: usize,
            classes: *const u8,
            classes_len: usize,
            customers: *const u64,
            customers_len: usize,
            rates: *const u64,
            rates_len: usize,
            olds: *const u64,
            olds_len: usize,
            news: *const u64,
            news_len: usize,
            nets: *mut i64,
            nets_len: usize,
        ) -> u64;
    }
}

/// The lists of rows and the loads that load migration takes.
#[derive(Clone, Copy)]
pub struct Migration<'a> {
    pub classes: &'a [u8],
    pub customers: &'a [u64],
    pub rates: &'a [u64],
    pub olds: &'a [u64],
    pub news: &'a [u64],
    pub loads: &'a [u64],
}

pub fn migrate_load(nodes: usize, period: u64, book: &[u8], lists: &Migration, file: &mut [u8], bytes: &mut usize) -> u64 {
    let Migration { classes, customers, rates, olds, news, loads } = *lists;
    unsafe {
        c::crr_migrate_load(
            nodes,
            period,
            book.as_ptr(),
            book.len(),
            classes.as_ptr(),
            classes.len(),
            customers.as_ptr(),
            customers.len(),
            rates.as_ptr(),
            rates.len(),
            olds.as_ptr(),
            olds.len(),
            news.as_ptr(),
            news.len(),
            loads.as_ptr(),
            loads.len(),
            file.as_mut_ptr(),
            file.len(),
            bytes,
        )
    }
}

/// The lists' loads are not looked at.
pub fn net_transfers(lses: usize, lists: &Migration, nets: &mut [i64]) -> u64 {
    let Migration { classes, customers, rates, olds, news, loads: _ } = lists;
    unsafe {
        c::crr_net_transfers(
            lses,
            classes.as_ptr(),
            classes.len(),
            customers.as_ptr(),
            customers.len(),
            rates.as_ptr(),
            rates.len(),
            olds.as_ptr(),
            olds.len(),
            news.as_ptr(),
            news.len(),
            nets.as_mut_ptr(),
            nets.len(),
        )
    }
}
