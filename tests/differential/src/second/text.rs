//! The feasibility report and the hour statement.

use super::book::{self, Contract};
use super::grid::{self, Grid};
use super::prices;
use super::settlement::hour;
use super::test::{excess, of_period, overloaded};
use super::Answer;

pub const REPORT_BYTES: usize = 2048;
pub const STATEMENT_BYTES: usize = 29_085;
/// The longest grid that a text takes: 32 KiB.
pub const GRID_BYTES: usize = 32_768;

/// A file that was refused, and its number.
pub type Refused = (&'static str, u64);

fn refused_line(refused: Refused) -> String {
    format!("refused,{},{}\n", refused.0, refused.1)
}

fn report_line(grid: &Grid, contracts: &[Contract], period: &str, process: (u64, &str)) -> String {
    let over = overloaded(grid, process.0, contracts);
    let name = process.1;
    match over.first() {
        None => format!("{period},{name},pass,0,,,\n"),
        Some(&lowest) => {
            let numbers: Vec<String> = over.iter().map(usize::to_string).collect();
            let above = excess(grid, process.0, contracts, lowest);
            format!("{period},{name},fail,{},{lowest},{above},{}\n", over.len(), numbers.join(" "))
        }
    }
}

fn grid_and_book(grid_file: &[u8], book_file: &[u8]) -> Result<(Grid, Vec<Contract>), Refused> {
    let (_, grid) = grid::parse(grid_file, GRID_BYTES).map_err(|number| ("grid", number))?;
    let (_, book) = book::parse(grid.nodes, book_file).map_err(|number| ("book", number))?;
    Ok((grid, book))
}

fn report_text(grid_file: &[u8], book_file: &[u8]) -> Result<String, Refused> {
    let (grid, book) = grid_and_book(grid_file, book_file)?;
    let mut text = String::from("period,process,verdict,overloaded,lowest,excess,constraints\n");
    for (period, name) in [(0, "off-peak"), (1, "on-peak")] {
        for process in [(0, "annual"), (1, "lt"), (2, "monthly")] {
            text += &report_line(&grid, &of_period(&book, period), name, process);
        }
    }
    Ok(text)
}

/// The text, and the file that it says was refused.
pub struct Text {
    pub text: String,
    pub refused: Option<Refused>,
}

fn rendered(text: Result<String, Refused>) -> Text {
    match text {
        Ok(text) => Text { text, refused: None },
        Err(refused) => Text { text: refused_line(refused), refused: Some(refused) },
    }
}

pub fn report(grid_file: &[u8], book_file: &[u8], room: usize) -> Answer<Text> {
    super::first(&[(room < REPORT_BYTES, 9)])?;
    Ok(rendered(report_text(grid_file, book_file)))
}

fn contract_line(number: usize, contract: &Contract, cents: i128, priced: usize) -> String {
    let kind = if contract.kind == 1 { "OPT" } else { "OBL" };
    format!("{number},{},{kind},{cents},{priced}\n", contract.holder)
}

fn statement_text(grid_file: &[u8], book_file: &[u8], price_file: &[u8]) -> Result<String, Refused> {
    let (grid, book) = grid_and_book(grid_file, book_file)?;
    let read = prices::read(grid.constraints as usize, price_file, 64);
    let (period, prices) = read.map_err(|number| ("prices", number))?;
    let hour = hour(&grid, &prices, period, &book);
    let mut text = String::from("contract,holder,kind,cents,priced\n");
    for (number, contract) in book.iter().enumerate().filter(|(_, contract)| contract.period == period) {
        text += &contract_line(number, contract, hour.cents[number], hour.priced[number].len());
    }
    text += &format!("sum,{}\nexact,{},{}\n", hour.sum, hour.whole, hour.parts);
    Ok(text)
}

pub fn statement(grid_file: &[u8], book_file: &[u8], price_file: &[u8], room: usize) -> Answer<Text> {
    super::first(&[(room < STATEMENT_BYTES, 9)])?;
    Ok(rendered(statement_text(grid_file, book_file, price_file)))
}
