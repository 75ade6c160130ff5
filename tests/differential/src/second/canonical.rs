//! The canonical form of a book (paper 11): the total of each kind, period, holder, source and sink, in that order, cut into rows.

use super::book::{file_of, parse, Contract};
use super::{first, nodes_fail, Answer};
use std::collections::BTreeMap;

/// The most that a row holds.
pub const FULL: i128 = 1_000_000;

/// Kind, period, holder, source and sink, which compare in this order.
pub type Five = [i128; 5];

pub fn five(contract: &Contract) -> Five {
    let Contract { kind, period, holder, source, sink, .. } = *contract;
    [kind, period, holder, source, sink]
}

/// The total quantity of each five that the book has.
pub fn totals(book: &[Contract]) -> BTreeMap<Five, i128> {
    let mut totals = BTreeMap::new();
    for contract in book {
        *totals.entry(five(contract)).or_default() += contract.quantity;
    }
    totals
}

/// A total as rows: full ones, and any rest last.
fn cut([kind, period, holder, source, sink]: Five, total: i128) -> Vec<Contract> {
    let mut rows = Vec::new();
    let mut left = total;
    while left > 0 {
        let quantity = left.min(FULL);
        rows.push(Contract { kind, period, holder, source, sink, quantity });
        left -= quantity;
    }
    rows
}

pub fn canonical(book: &[Contract]) -> Vec<Contract> {
    totals(book).into_iter().flat_map(|(five, total)| cut(five, total)).collect()
}

/// The book's own checks, then 9 alone.
pub fn canonical_file(nodes: usize, file: &[u8], room: usize) -> Answer<Vec<u8>> {
    first(&[(nodes_fail(nodes as i128), 2)])?;
    let (form, book) = parse(nodes as i128, file)?;
    let written = file_of(form, &canonical(&book));
    first(&[(room < written.len(), 9)])?;
    Ok(written)
}
