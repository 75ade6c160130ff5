//! The market's view of a book, and a holder's (paper 10).

use super::book::{file_of, parse, record, Contract};
use super::word::{bytes, field};
use super::{first, nodes_fail, Answer, Form};

/// The book's own checks, 2 for the node count before them.
fn own(nodes: usize, file: &[u8]) -> Answer<(Form, Vec<Contract>)> {
    first(&[(nodes_fail(nodes as i128), 2)])?;
    parse(nodes as i128, file)
}

/// The book file with every holder 0.
pub fn market(nodes: usize, file: &[u8], room: usize) -> Answer<Vec<u8>> {
    let (form, book) = own(nodes, file)?;
    let nobody: Vec<Contract> = book.iter().map(|contract| Contract { holder: 0, ..*contract }).collect();
    let view = file_of(form, &nobody);
    first(&[(room < view.len(), 9)])?;
    Ok(view)
}

/// The holder's contracts in book order, each as a 16-bit number and then the contract's own bytes.
pub fn holder(nodes: usize, file: &[u8], holder: u64, room: usize) -> Answer<Vec<u8>> {
    let (form, book) = own(nodes, file)?;
    first(&[(holder > 1023, 18)])?;
    let mut view = Vec::new();
    for (number, own) in file[2..].chunks(record(form)).enumerate() {
        if book[number].holder == i128::from(holder) {
            view.extend(bytes(&field(number as i128, 16)));
            view.extend(own);
        }
    }
    first(&[(room < view.len(), 9)])?;
    Ok(view)
}
