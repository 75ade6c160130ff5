//! A book with its retired nodes remapped.

use super::book::{file_of, largest_end, parse, Contract};
use super::{first, nodes_fail, Answer};

/// An end after one pair: the new number where it is the old one.
pub fn step(end: i128, old: u64, new: u64) -> i128 {
    if end == old.into() {
        new.into()
    } else {
        end
    }
}

/// A contract after one pair.
fn moved(contract: Contract, old: u64, new: u64) -> Contract {
    Contract { source: step(contract.source, old, new), sink: step(contract.sink, old, new), ..contract }
}

/// Each contract by one pair after another.
pub fn remapped(book: &[Contract], old: &[u64], new: &[u64]) -> Vec<Contract> {
    let by_all = |contract: &Contract| old.iter().zip(new).fold(*contract, |contract, (&old, &new)| moved(contract, old, new));
    book.iter().map(by_all).collect()
}

pub fn remap(nodes: usize, file: &[u8], old: &[u64], new: &[u64], room: usize) -> Answer<Vec<u8>> {
    let nodes = nodes as i128;
    first(&[(nodes_fail(nodes), 2)])?;
    let (form, book) = parse(nodes, file)?;
    let no_node = |list: &[u64]| list.iter().any(|&number| i128::from(number) >= nodes);
    // a new number must also fit the book's own form
    let unheld = new.iter().any(|&number| i128::from(number) > largest_end(form));
    first(&[(no_node(old), 11), (no_node(new) || unheld, 11), (old.len() != new.len(), 9)])?;
    let file = file_of(form, &remapped(&book, old, new));
    first(&[(room < file.len(), 9)])?;
    Ok(file)
}
