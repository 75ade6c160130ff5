use super::book::{check_book, record, store, NARROW, WIDE};
use super::*;

/// A contract's bytes as one number compare by kind, period, holder, source and sink, and then by quantity, which has the last 20 bits.
const QUANTITY: u64 = (1 << 20) - 1;
const FULL: u64 = 1_000_000;

/// Sorted rows, neighbours of one five added and cut in place: never more rows out than were read. How many there are.
fn add_up(rows: &mut [u64]) -> usize {
    let Some(&first) = rows.first() else {
        return 0;
    };
    let (mut out, mut pending) = (0, first);
    for next in 1..rows.len() {
        let row = rows[next];
        if (row ^ pending) > QUANTITY {
            rows[out] = pending;
            out += 1;
            pending = row;
            continue;
        }
        let both = (pending & QUANTITY) + (row & QUANTITY);
        let five = row & !QUANTITY;
        if both > FULL {
            rows[out] = five | FULL;
            out += 1;
            pending = five | (both - FULL);
        } else {
            pending = five | both;
        }
    }
    rows[out] = pending;
    out + 1
}

fn canonical_file<const BYTES: usize>(book: &[u8], count: usize, spare: u16, file: &mut [u8]) -> Result<usize, Refusal> {
    let mut rows = [0; MAX_CONTRACTS];
    let rows = &mut rows[..count];
    for (row, bytes) in rows.iter_mut().zip(book[2..].chunks_exact(BYTES)) {
        *row = record::<BYTES>(bytes);
    }
    rows.sort_unstable();
    let canonical = add_up(rows);
    let size = 2 + BYTES * canonical;
    let file = file.get_mut(..size).ok_or(SHORT_TABLE)?;
    file[..2].copy_from_slice(&((canonical as u16) << 6 | spare).to_be_bytes());
    for (bytes, &row) in file[2..].chunks_exact_mut(BYTES).zip(&*rows) {
        store::<BYTES>(bytes, row);
    }
    Ok(size)
}

#[inline(never)]
pub fn write_canonical_book(nodes: usize, book: &[u8], file: &mut [u8]) -> Result<usize, Refusal> {
    check_nodes(nodes)?;
    let (count, form) = check_book(nodes, book)?;
    match form {
        Form::Narrow => canonical_file::<NARROW>(book, count, 0, file),
        Form::Wide => canonical_file::<WIDE>(book, count, 0x3f, file),
    }
}
