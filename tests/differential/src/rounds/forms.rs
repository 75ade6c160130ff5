//! The two forms of grids and books, and what inputs show of them.

use super::names;
use crate::second::book::{self, Contract};
use crate::second::Form;
use crate::second::Form::{Narrow, Wide};

pub const GRIDS_READ: [&str; 6] = [
    "narrow grid",
    "wide grid of 1 to 200 nodes",
    "wide grid of over 200 nodes",
    "wide grid of 4,000 nodes and 64 constraints",
    "wide grid of over 4,000 nodes refused",
    "wide grid of two or three bytes refused",
];

/// What a grid's file shows: its form and counts where it is read, else the refusal.
pub fn grid_read(file: &[u8], read: Result<(Form, i128, i128), u64>) -> Vec<&'static str> {
    let wide_header = file.len() > 1 && file[0] == 0 && file[1] % 2 == 1;
    let over = file.len() > 3 && u16::from_be_bytes([file[2], file[3]]) > 4000;
    names(
        &GRIDS_READ,
        [
            matches!(read, Ok((Narrow, ..))),
            matches!(read, Ok((Wide, ..=200, _))),
            matches!(read, Ok((Wide, 201.., _))),
            matches!(read, Ok((Wide, 4000, 64))),
            wide_header && over && read == Err(2),
            wide_header && file.len() < 4 && read == Err(1),
        ],
    )
}

pub const GRIDS_WRITTEN: [&str; 6] = [
    "narrow grid",
    "wide grid of 1 to 200 nodes",
    "wide grid of 4,000 nodes",
    "told by 2",
    "told by the largest number",
    "narrow grid of 201 to 4,000 nodes refused",
];

pub fn grid_written(told: u64, nodes: usize, number: u64) -> Vec<&'static str> {
    let (wide, written) = (told != 0, number == 0);
    names(
        &GRIDS_WRITTEN,
        [
            !wide && written,
            wide && nodes <= 200 && written,
            wide && nodes == 4000 && written,
            told == 2 && written,
            told == u64::MAX && written,
            !wide && (201..=4000).contains(&nodes) && number == 2,
        ],
    )
}

pub const BOOKS: [&str; 6] = [
    "narrow book, up to 200 nodes",
    "narrow book, over 200 nodes",
    "wide book, up to 200 nodes",
    "wide book, over 200 nodes",
    "an end above 255",
    "an end of 3,999",
];

/// What a book that is accepted shows.
pub fn book(form: Form, nodes: i128, book: &[Contract]) -> Vec<&'static str> {
    let end = |shows: fn(i128) -> bool| book.iter().any(|own| shows(own.source) || shows(own.sink));
    let kinds = [(Narrow, false), (Narrow, true), (Wide, false), (Wide, true)].map(|kind| kind == (form, nodes > 200));
    names(&BOOKS, [kinds[0], kinds[1], kinds[2], kinds[3], end(|node| node > 255), end(|node| node == 3999)])
}

pub const BOOKS_READ: [&str; 3] =
    ["an end of 4,000 to 4,095 refused", "narrow header, wide records refused", "wide header, narrow records refused"];

/// What a book's file shows that is refused.
pub fn book_refused(file: &[u8], number: u64) -> Vec<&'static str> {
    let spare = file.get(1).map(|byte| byte % 64);
    let end = |record: &[u8]| record[2] == 0xfa || record[3] % 16 == 15 && record[4] >= 0xa0;
    let far = spare == Some(63) && file[2..].chunks_exact(7).take(1).any(end);
    let count = file.get(..2).map_or(0, |header| usize::from(u16::from_be_bytes([header[0], header[1]]) >> 6));
    let of = |form: Form| file.len() == 2 + book::record(form) * count;
    names(&BOOKS_READ, [number == 11 && far, number == 5 && spare == Some(0) && of(Wide), number == 5 && spare == Some(63) && of(Narrow)])
}

pub const BOOKS_WRITTEN: [&str; 4] =
    ["told by 2", "told by the largest number", "an end of 256 in a narrow book refused", "an end of 255 in a narrow book, over 256 nodes"];

/// What a table of contracts shows: its largest end, and the answer.
pub fn book_written(told: u64, nodes: usize, rows: &[u64], number: u64) -> Vec<&'static str> {
    let far = rows.chunks_exact(6).map(|row| row[3].max(row[4])).max();
    let narrow = told == 0 && (257..=4000).contains(&nodes);
    names(
        &BOOKS_WRITTEN,
        [
            told == 2 && number == 0,
            told == u64::MAX && number == 0,
            narrow && far == Some(256) && number == 11,
            narrow && far == Some(255) && number == 0,
        ],
    )
}
