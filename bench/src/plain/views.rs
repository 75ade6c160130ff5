use super::book::{check_book, NARROW, WIDE};
use super::*;

/// Kind and period stay in a contract's first byte, and the start of its source in the second.
fn clear_holders<const BYTES: usize>(file: &mut [u8]) {
    for contract in file[2..].chunks_exact_mut(BYTES) {
        contract[0] &= 0xc0;
        contract[1] &= 0x0f;
    }
}

#[inline(never)]
pub fn write_market_view(nodes: usize, book: &[u8], file: &mut [u8]) -> Result<usize, Refusal> {
    check_nodes(nodes)?;
    let (_, form) = check_book(nodes, book)?;
    let file = file.get_mut(..book.len()).ok_or(SHORT_TABLE)?;
    file.copy_from_slice(book);
    match form {
        Form::Narrow => clear_holders::<NARROW>(file),
        Form::Wide => clear_holders::<WIDE>(file),
    }
    Ok(book.len())
}

/// Whether a contract is the holder's.
#[inline]
fn held_by(contract: &[u8], holder: u16) -> bool {
    u16::from_be_bytes([contract[0], contract[1]]) >> 4 & 0x3ff == holder
}

/// `ROW` is `BYTES` and the two of a contract's number.
fn fill_view<const BYTES: usize, const ROW: usize>(book: &[u8], holder: u16, view: &mut [u8]) -> Result<usize, Refusal> {
    let contracts = book[2..].chunks_exact(BYTES);
    let held = contracts.clone().filter(|contract| held_by(contract, holder)).count();
    let view = view.get_mut(..ROW * held).ok_or(SHORT_TABLE)?;
    let own = contracts.enumerate().filter(|(_, contract)| held_by(contract, holder));
    for (row, (number, contract)) in view.chunks_exact_mut(ROW).zip(own) {
        row[..2].copy_from_slice(&(number as u16).to_be_bytes());
        row[2..].copy_from_slice(contract);
    }
    Ok(ROW * held)
}

#[inline(never)]
pub fn write_holder_view(nodes: usize, book: &[u8], holder: u64, view: &mut [u8]) -> Result<usize, Refusal> {
    check_nodes(nodes)?;
    let (_, form) = check_book(nodes, book)?;
    demand(holder <= 1023, HOLDER_RANGE)?;
    match form {
        Form::Narrow => fill_view::<NARROW, 8>(book, holder as u16, view),
        Form::Wide => fill_view::<WIDE, 9>(book, holder as u16, view),
    }
}
