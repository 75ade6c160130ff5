//! The two texts.

use crate::lent;
use crate::refused::{written, Refused};
use crate::sizes::{REPORT_BYTES, STATEMENT_BYTES};

/// The feasibility report of a grid's file and a book's file. What is wrong with a file is told by its line.
pub fn write_report(grid_file: &[u8], book_file: &[u8]) -> Result<String, Refused> {
    written(REPORT_BYTES, |text, bytes| lent::write_report(grid_file, book_file, text, bytes)).map(ascii)
}

/// The hour statement of a grid's file, a book's file and a price file. What is wrong with a file is told by its line.
pub fn write_statement(grid_file: &[u8], book_file: &[u8], price_file: &[u8]) -> Result<String, Refused> {
    written(STATEMENT_BYTES, |text, bytes| lent::write_statement(grid_file, book_file, price_file, text, bytes)).map(ascii)
}

fn ascii(text: Vec<u8>) -> String {
    String::from_utf8(text).expect("the library's texts are ASCII")
}
