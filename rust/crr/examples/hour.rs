//! Tests the book of a folder against its grid, monthly, and settles its hour: `hour FOLDER`, a folder with grid.bin, book.bin and prices.bin.
use crr::{read_prices, settle_hour, test_book, Grid, Process, Verdict};
use std::error::Error;
use std::path::PathBuf;

fn main() -> Result<(), Box<dyn Error>> {
    let folder = PathBuf::from(std::env::args().nth(1).ok_or("usage: hour FOLDER")?);
    let load = |name| std::fs::read(folder.join(name)).map_err(|why| format!("{name}: {why}"));
    let (grid, book) = (Grid::read(&load("grid.bin")?)?, load("book.bin")?);
    let (period, prices) = read_prices(grid.constraints, &load("prices.bin")?)?;
    match test_book(&grid, Process::Monthly, period, &book)? {
        Verdict::Pass => println!("pass"),
        Verdict::Fail { count, lowest, excess, .. } => println!("fail: {count} overloaded, constraint {lowest} by {excess}"),
    }
    let hour = settle_hour(&grid, &prices, period, &book)?;
    println!("sum {}, exact {} cents and {} parts", hour.sum, hour.whole, hour.parts);
    Ok(())
}
