//! Every header of two bytes, of a grid's file and of a book's, with a few tails. A round has the headers of one first byte.

use super::*;
use crate::second::book::record;
use crate::second::grid::size;
use crate::tally::Round;

/// So many rounds have every first byte.
pub const FIRST_BYTES: u64 = 256;

/// Longer tails are left out.
const LONGEST: usize = 300;

fn headers(round: &Round) -> impl Iterator<Item = [u8; 2]> {
    let high = round.number as u8;
    (0..=255).map(move |low| [high, low])
}

/// Zeros, zeros and a last bit that is set, or any bytes, as many as a file has after what is there.
fn filled(draw: &mut Draw, mut file: Vec<u8>, length: usize) -> Vec<u8> {
    let count = length.saturating_sub(file.len()).min(LONGEST);
    let mut more = if draw.once_in(3) { draw.bytes(count) } else { vec![0; count] };
    if draw.once_in(3) {
        more.iter_mut().rev().take(1).for_each(|last| *last |= 1);
    }
    file.extend(more);
    file
}

/// The header alone, with a byte, with a wide form's node count, with as many bytes as it says, and with any.
fn grid_files(draw: &mut Draw, header: [u8; 2]) -> [Vec<u8>; 5] {
    let count = draw.pick(&[0u16, 1, 1, 2, 3, 200, 201, 255, 256, 4000, 4001, 65_535]);
    let counted = [&header[..], &count.to_be_bytes()].concat();
    let constraints = i128::from(header[1] >> 1);
    let wide = header[0] == 0 && header[1] % 2 == 1;
    let (form, start, nodes) =
        if wide { (Form::Wide, counted.clone(), i128::from(count)) } else { (Form::Narrow, header.to_vec(), i128::from(header[0])) };
    let length = size(form, nodes, constraints) as usize;
    let any = draw.below(12) as usize;
    [header.to_vec(), filled(draw, header.to_vec(), 3), counted, filled(draw, start, length), filled(draw, header.to_vec(), 2 + any)]
}

pub fn grid(round: &mut Round) {
    super::grid::read_call(round, &[round.number as u8], 2, 2);
    for header in headers(round) {
        for file in grid_files(&mut round.draw, header) {
            let room = if round.draw.once_in(3) { 1 } else { 130 };
            super::grid::read_call(round, &file, room, room);
        }
    }
}

/// Contracts of a book's file, as they are or with some bytes of another kind.
fn records(draw: &mut Draw, form: Form, count: usize) -> Vec<u8> {
    let own: &[u8] = match form {
        Form::Narrow => &[0x40, 0x70, 0x00, 0x10, 0x27, 0x10],
        Form::Wide => &[0x40, 0x70, 0x00, 0x00, 0x10, 0x27, 0x10],
    };
    let mut bytes = own.repeat(count);
    let at = draw.below(bytes.len() as u64 + 1) as usize;
    match draw.below(6) {
        0 | 1 => bytes.iter_mut().skip(at).take(1).for_each(|byte| *byte = draw.next() as u8),
        // the last contract's quantity 0
        2 => bytes.iter_mut().rev().take(2).for_each(|byte| *byte = 0),
        _ => {}
    }
    bytes
}

/// The header alone, with as many bytes as each form has for its count, with a byte more or less, and with any. Long ones only where the spare bits have a
/// pattern.
fn book_files(draw: &mut Draw, header: [u8; 2], count: usize) -> [Vec<u8>; 5] {
    let pattern = [0, 63].contains(&(header[1] % 64));
    let count = if pattern { count } else { count.min(3) };
    let whole = [Form::Narrow, Form::Wide].map(|form| [&header[..], &records(draw, form, count)].concat());
    let mut near = whole[draw.below(2) as usize].clone();
    if draw.once_in(2) {
        near.push(0);
    } else {
        near.pop();
    }
    let any = draw.below(12) as usize;
    let [narrow, wide] = whole;
    [header.to_vec(), narrow, wide, near, filled(draw, header.to_vec(), 2 + any)]
}

pub fn book(round: &mut Round) {
    super::book::read_call(round, 3, &[round.number as u8], 12);
    for header in headers(round) {
        let count = usize::from(u16::from_be_bytes(header) >> 6);
        for file in book_files(&mut round.draw, header, count) {
            let nodes = round.draw.pick(&[1, 2, 3, 200, 201, 256, 4000, 4000, 4001, 0]);
            let fits = file.len() >= 2 + record(Form::Narrow) * count;
            let room = if fits && !round.draw.once_in(4) { 6 * count } else { 6 };
            super::book::read_call(round, nodes, &file, room);
        }
    }
}
