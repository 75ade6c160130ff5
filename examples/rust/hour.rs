//! Tests the book of a folder against its grid, monthly, and settles its hour.
extern "C" {
    fn crr_read_grid(
        file: *const u8, file_len: usize, limits: *mut u64, limits_len: usize, factors: *mut i64, factors_len: usize,
        nodes: &mut usize, constraints: &mut usize, form: &mut u64,
    ) -> u64;
    fn crr_read_prices(
        constraints: usize, file: *const u8, file_len: usize, prices: *mut u64, prices_len: usize, period: &mut u64,
    ) -> u64;
    fn crr_test_book(
        nodes: usize, constraints: usize, process: u64, period: u64, limits: *const u64, limits_len: usize,
        factors: *const i64, factors_len: usize, book: *const u8, book_len: usize,
        set: &mut u64, count: &mut usize, lowest: &mut usize, excess: &mut i64,
    ) -> u64;
    fn crr_settle_hour(
        nodes: usize, constraints: usize, period: u64, factors: *const i64, factors_len: usize, prices: *const u64,
        prices_len: usize, book: *const u8, book_len: usize, cents: *mut i64, cents_len: usize,
        priced: *mut u64, priced_len: usize, sum: &mut i64, whole: &mut i64, parts: &mut u64,
    ) -> u64;
}

fn accepted(what: &str, number: u64) {
    if number != 0 {
        println!("{what} refused: {number}");
        std::process::exit(1);
    }
}

fn main() {
    let load = |name| std::fs::read(name).unwrap_or_default();
    let (grid, book, price_file) = (load("grid.bin"), load("book.bin"), load("prices.bin"));
    let (mut limits, mut prices, mut factors) = ([0u64; 64], [0u64; 64], vec![0i64; 4000 * 64]);
    let (mut cents, mut priced) = ([0i64; 1000], [0u64; 1000]);
    let (mut nodes, mut constraints, mut form, mut period) = (0, 0, 0, 0);
    let (mut set, mut count, mut lowest, mut excess) = (0, 0, 0, 0);
    let (mut sum, mut whole, mut parts) = (0, 0, 0);
    // Each pointer is that of a live buffer of the length beside it, and no two of those lent to be written overlap.
    unsafe {
        accepted("grid", crr_read_grid(
            grid.as_ptr(), grid.len(), limits.as_mut_ptr(), limits.len(), factors.as_mut_ptr(), factors.len(),
            &mut nodes, &mut constraints, &mut form,
        ));
        accepted("prices", crr_read_prices(
            constraints, price_file.as_ptr(), price_file.len(), prices.as_mut_ptr(), prices.len(), &mut period,
        ));
        accepted("test", crr_test_book(
            nodes, constraints, 2, period, limits.as_ptr(), limits.len(), factors.as_ptr(), factors.len(),
            book.as_ptr(), book.len(), &mut set, &mut count, &mut lowest, &mut excess,
        ));
        accepted("hour", crr_settle_hour(
            nodes, constraints, period, factors.as_ptr(), factors.len(), prices.as_ptr(), prices.len(),
            book.as_ptr(), book.len(), cents.as_mut_ptr(), cents.len(), priced.as_mut_ptr(), priced.len(),
            &mut sum, &mut whole, &mut parts,
        ));
    }
    if set == 0 {
        println!("pass");
    } else {
        println!("fail: {count} overloaded, constraint {lowest} by {excess}");
    }
    println!("sum {sum}, exact {whole} cents and {parts} parts");
}
