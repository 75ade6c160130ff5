//! An hour's shadow prices and their file.

use super::word::{bytes, field, padded, Reader};
use super::{cells, constraints_fail, first, price_fails, Answer};

pub fn read(constraints: usize, file: &[u8], room: usize) -> Answer<(i128, Vec<i128>)> {
    let constraints = constraints as i128;
    first(&[(constraints_fail(constraints), 3), (file.is_empty(), 1)])?;
    let mut header = Reader::new(&file[..1]);
    let (period, count) = (header.take(1), header.take(7));
    let size = (1 + 7 + 19 * constraints + 7) / 8;
    first(&[(count != constraints, 14), (file.len() as i128 != size, 5)])?;
    let mut reader = Reader::new(file);
    reader.skip(8);
    let prices: Vec<i128> = (0..constraints).map(|_| reader.take(19)).collect();
    first(&[(prices.iter().any(|&price| price_fails(price)), 15)])?;
    reader.end()?;
    first(&[((room as i128) < constraints, 9)])?;
    Ok((period, prices))
}

/// The file of prices that are in range.
pub fn file_of(period: i128, prices: &[i128]) -> Vec<u8> {
    let mut word = field(period, 1) + &field(prices.len() as i128, 7);
    word.extend(prices.iter().map(|&price| field(price, 19)));
    bytes(&padded(word))
}

pub fn write(period: u64, constraints: usize, table: &[u64], room: usize) -> Answer<Vec<u8>> {
    first(&[(period > 1, 17), (constraints_fail(constraints as i128), 3)])?;
    let prices = cells(table, constraints as i128)?;
    first(&[(prices.iter().any(|&price| price_fails(price)), 15)])?;
    let file = file_of(period as i128, &prices);
    first(&[(room < file.len(), 9)])?;
    Ok(file)
}
