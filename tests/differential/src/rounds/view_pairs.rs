//! What the market and a holder do not learn: books that differ there alone, asked of the proved library, give equal answers and equal places.

use super::views::Own;
use super::*;
use crate::draw::{self, Size};
use crate::library;
use crate::second::book::{self, record, Contract};
use crate::tally::Round;

/// Pairs of books that differ in holder numbers, by the answer to both.
pub const MARKET: [&str; 9] = [
    "a pair accepted",
    "a pair refused by 1",
    "a pair refused by 2",
    "a pair refused by 4",
    "a pair refused by 5",
    "a pair refused by 9",
    "a pair refused by 10",
    "a pair refused by 11",
    "a pair refused by 13",
];
const NUMBERS: [u64; 9] = [0, 1, 2, 4, 5, 9, 10, 11, 13];

/// Pairs of accepted books that differ in other holders' contracts.
pub const HOLDER: [&str; 3] = ["a pair of equal length", "a pair of unequal length", "a pair refused by 9"];

/// A view's answer, its length, and the place at exit.
type Seen = (u64, usize, Vec<u8>);

/// The file with other holder numbers in the contracts that it has whole, in each form's places; behind them, where such a file is refused, with any bytes.
fn other_holders(draw: &mut Draw, file: &[u8]) -> Vec<u8> {
    let mut file = file.to_vec();
    let [high, low, ..] = file[..] else {
        return file;
    };
    let count = usize::from(u16::from_be_bytes([high, low]) >> 6);
    let form = match low % 64 {
        0 => Form::Narrow,
        63 => Form::Wide,
        _ => draw.form(),
    };
    let changes = draw.pick(&[[0x3f, 0xf0], [0x20, 0], [0, 0x10], [0xff, 0xff]]);
    let whole = count.min((file.len() - 2) / record(form));
    let (contracts, rest) = file[2..].split_at_mut(record(form) * whole);
    for contract in contracts.chunks_mut(record(form)) {
        // the ten bits behind kind and period
        contract[0] ^= draw.next() as u8 & changes[0] & 0x3f;
        contract[1] ^= draw.next() as u8 & changes[1] & 0xf0;
    }
    if draw.once_in(2) {
        rest.iter_mut().for_each(|byte| *byte = draw.next() as u8);
    }
    file
}

/// The same view of two books into places that hold the same.
fn seen(draw: &mut Draw, room: usize, books: [&[u8]; 2], view: impl Fn(&[u8], &mut [u8], &mut usize) -> u64) -> [Seen; 2] {
    let (place, before) = (draw.bytes(room), draw.next() as usize);
    books.map(|book| {
        let (mut place, mut bytes) = (place.clone(), before);
        (view(book, &mut place, &mut bytes), bytes, place)
    })
}

fn compare(round: &mut Round, [first, second]: &[Seen; 2]) {
    round.compare(first.0, second.0, &[unless(first == second, "the view tells two such books apart")]);
}

/// Each file, accepted or not, beside one that differs in holder numbers alone.
pub fn market_pairs(round: &mut Round, own: &Own, files: &[Vec<u8>]) {
    for file in files {
        let other = other_holders(&mut round.draw, file);
        let nodes = if round.draw.once_in(12) { round.draw.pick(&WRONG_NODES) } else { own.size.nodes as usize };
        let room = if round.draw.once_in(6) { short(file.len()) } else { file.len() + round.draw.below(3) as usize };
        let pair = seen(&mut round.draw, room, [file, &other], |book, place, bytes| library::write_market_view(nodes, book, place, bytes));
        // fewer than two bytes have no holder to be changed
        let case = NUMBERS.iter().position(|number| *number == pair[0].0 && (other != *file || *number == 1));
        round.shown(case.map_or(&[], |case| &MARKET[case..=case]));
        compare(round, &pair);
    }
}

/// The book with the holder's contracts in their places, any others in the places of the others, and so many more behind.
fn other_contracts(draw: &mut Draw, own: &Own, number: i128, more: i128) -> Vec<Contract> {
    let size = Size { contracts: own.book.len() as i128 + more, ..own.size };
    let mut book = draw::book(draw, size, own.form);
    for contract in book.iter_mut().filter(|contract| contract.holder == number) {
        contract.holder ^= 1;
    }
    for (place, contract) in own.book.iter().enumerate().filter(|(_, contract)| contract.holder == number) {
        book[place] = *contract;
    }
    book
}

/// An accepted book beside others in which the holder has the same contracts with the same numbers, as long as it or longer.
pub fn holder_pairs(round: &mut Round, own: &Own, number: u64) {
    let (nodes, file) = (own.size.nodes as usize, own.file());
    let length = (2 + record(own.form)) * own.book.iter().filter(|contract| contract.holder == i128::from(number)).count();
    for more in [0, round.draw.within(1, 5)].into_iter().filter(|more| own.book.len() as i128 + more <= 1000) {
        let other = book::file_of(own.form, &other_contracts(&mut round.draw, own, number.into(), more));
        for room in [length, length + 3, short(length)] {
            let view = |book: &[u8], place: &mut [u8], bytes: &mut usize| library::write_holder_view(nodes, book, number, place, bytes);
            let pair = seen(&mut round.draw, room, [&file, &other], view);
            round.shown(&names(&HOLDER, [more == 0, more > 0, pair[0].0 == 9].map(|shown| shown && file != other)));
            compare(round, &pair);
        }
    }
}

/// The views of all holders, put in the order of the numbers, are the book: each contract is in one of them.
pub fn split(round: &mut Round, own: &Own) {
    let (nodes, file) = (own.size.nodes as usize, own.file());
    let mut holders: Vec<i128> = own.book.iter().map(|contract| contract.holder).collect();
    holders.sort_unstable();
    holders.dedup();
    let mut rows: Vec<Vec<u8>> = Vec::new();
    for holder in holders {
        let (mut view, mut bytes) = (vec![0; 9000], 0);
        library::write_holder_view(nodes, &file, holder as u64, &mut view, &mut bytes);
        rows.extend(view[..bytes].chunks(2 + record(own.form)).map(<[u8]>::to_vec));
    }
    rows.sort();
    let numbered = rows.iter().enumerate().all(|(number, row)| u16::from_be_bytes([row[0], row[1]]) == number as u16);
    let contracts: Vec<u8> = rows.iter().flat_map(|row| row[2..].to_vec()).collect();
    round.same(numbered && contracts == file[2..], "the views of all holders and the book");
}
