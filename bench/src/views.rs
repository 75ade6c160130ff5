//! Writing a holder's view, proved and plain: first compared, then timed. Its cost grows with the contracts of the book and with those that match.

use crate::entries::agree;
use crate::inputs::{Inputs, Size};
use crate::library;
use crate::plain::{self, Form};
use crate::splitmix::Draw;
use crate::timing::{side_by_side, Times};
use std::hint::black_box;

/// Of 1,000 contracts, so many match where nothing else is said.
pub const MATCHING: usize = 125;

const HOLDER: u64 = 7;
const VIEW_BYTES: usize = 9000;

/// A book of other holders' contracts, and so many of the holder's at places drawn at random.
fn book(size: Size, form: Form, matching: usize) -> Vec<u8> {
    let mut rows = Inputs::new(size, form).book;
    rows.chunks_mut(6).filter(|row| row[2] == HOLDER).for_each(|row| row[2] = HOLDER + 1);
    let mut draw = Draw::new(2013);
    let mut left: Vec<usize> = (0..size.contracts).collect();
    for _ in 0..matching {
        let place = left.swap_remove(draw.below(left.len() as u64) as usize);
        rows[6 * place + 2] = HOLDER;
    }
    let mut file = vec![0; 2 + 7 * size.contracts];
    let length = plain::write_book(form, size.nodes, size.contracts, &rows, &mut file).expect("a book in range");
    file.truncate(length);
    file
}

pub fn write_holder_view(size: Size, form: Form, matching: usize) -> Result<Times, String> {
    let (nodes, book) = (size.nodes, &book(size, form, matching));
    let (mut view, mut plain_view, mut bytes) = (vec![0; VIEW_BYTES], vec![0; VIEW_BYTES], 0);
    for holder in [HOLDER + 1, 0, 1023, HOLDER] {
        let proved = library::write_holder_view(nodes, book, holder, &mut view, &mut bytes);
        let plain = plain::write_holder_view(nodes, book, holder, &mut plain_view);
        agree(&(proved, Ok(bytes)), &(0, plain))?;
        agree(&view, &plain_view)?;
    }
    agree(&bytes, &(matching * if form == Form::Narrow { 8 } else { 9 }))?;
    Ok(side_by_side(
        &mut || {
            black_box(library::write_holder_view(nodes, black_box(book), HOLDER, &mut view, &mut bytes));
        },
        &mut || {
            let _ = black_box(plain::write_holder_view(nodes, black_box(book), HOLDER, &mut plain_view));
        },
    ))
}
