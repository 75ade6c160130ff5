//! Contracts and the book's file.

use super::word::{bytes, field, Reader};
use super::{first, nodes_fail, Answer, Form};

/// The widths of a contract's fields: kind, period, holder, source, sink, quantity.
fn widths(form: Form) -> [usize; 6] {
    match form {
        Form::Narrow => [1, 1, 10, 8, 8, 20],
        Form::Wide => [1, 1, 10, 12, 12, 20],
    }
}

/// A contract's bytes.
pub fn record(form: Form) -> usize {
    widths(form).iter().sum::<usize>() / 8
}

/// The largest end that its field holds.
pub fn largest_end(form: Form) -> i128 {
    match form {
        Form::Narrow => 255,
        Form::Wide => 4095,
    }
}

#[derive(Clone, Copy, Debug, PartialEq, Eq)]
pub struct Contract {
    pub kind: i128,
    pub period: i128,
    pub holder: i128,
    pub source: i128,
    pub sink: i128,
    pub quantity: i128,
}

impl Contract {
    /// The six cells of a table, in the file's order.
    pub fn row(&self) -> [i128; 6] {
        [self.kind, self.period, self.holder, self.source, self.sink, self.quantity]
    }

    fn from_row(row: &[i128]) -> Self {
        Contract { kind: row[0], period: row[1], holder: row[2], source: row[3], sink: row[4], quantity: row[5] }
    }

    fn word(&self, form: Form) -> String {
        self.row().iter().zip(widths(form)).map(|(&value, width)| field(value, width)).collect()
    }

    /// 11, 13.
    fn check(&self, nodes: i128) -> Answer<()> {
        first(&[(self.source >= nodes || self.sink >= nodes, 11), (self.quantity == 0 || self.quantity > 1_000_000, 13)])
    }

    /// An amount or a flow as it counts: an option's is never below zero.
    pub fn counted(&self, figure: i128) -> i128 {
        if self.kind == 1 {
            figure.max(0)
        } else {
            figure
        }
    }
}

/// The book's own checks, for a node count that is in range: 1, 10, 4, 5, then contract by contract.
pub fn parse(nodes: i128, file: &[u8]) -> Answer<(Form, Vec<Contract>)> {
    first(&[(file.len() < 2, 1)])?;
    let mut header = Reader::new(&file[..2]);
    let (count, spare) = (header.take(10), header.take(6));
    first(&[(count > 1000, 10), (spare != 0b000000 && spare != 0b111111, 4)])?;
    let form = if spare == 0 { Form::Narrow } else { Form::Wide };
    first(&[(file.len() != 2 + record(form) * count as usize, 5)])?;
    let mut book = Vec::new();
    for record in file[2..].chunks(record(form)) {
        let mut reader = Reader::new(record);
        let row = widths(form).map(|width| reader.take(width));
        let contract = Contract::from_row(&row);
        contract.check(nodes)?;
        book.push(contract);
    }
    Ok((form, book))
}

pub fn read(nodes: usize, file: &[u8], room: usize) -> Answer<(Form, Vec<Contract>)> {
    first(&[(nodes_fail(nodes as i128), 2)])?;
    let (form, book) = parse(nodes as i128, file)?;
    first(&[(room < 6 * book.len(), 9)])?;
    Ok((form, book))
}

/// The file of a book whose figures their fields hold.
pub fn file_of(form: Form, book: &[Contract]) -> Vec<u8> {
    let spare = if form == Form::Narrow { "000000" } else { "111111" };
    let mut word = field(book.len() as i128, 10) + spare;
    word.extend(book.iter().map(|contract| contract.word(form)));
    bytes(&word)
}

pub fn write(form: Form, nodes: usize, contracts: usize, table: &[u64], room: usize) -> Answer<Vec<u8>> {
    let nodes = nodes as i128;
    first(&[(nodes_fail(nodes), 2), (contracts > 1000, 10)])?;
    let rows = super::cells(table, 6 * contracts as i128)?;
    let mut book = Vec::new();
    for row in rows.chunks(6) {
        let contract = Contract::from_row(row);
        first(&[(contract.kind > 1 || contract.period > 1, 17), (contract.holder > 1023, 18)])?;
        let unheld = contract.source > largest_end(form) || contract.sink > largest_end(form);
        first(&[(unheld, 11)])?;
        contract.check(nodes)?;
        book.push(contract);
    }
    let file = file_of(form, &book);
    first(&[(room < file.len(), 9)])?;
    Ok(file)
}
