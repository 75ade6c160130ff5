use super::bits::{fields, padding_is_zero, Writer};
use super::*;

const PRICES_AT: usize = 8;

#[inline(never)]
pub fn read_prices(constraints: usize, file: &[u8], prices: &mut [u64]) -> Result<u64, Refusal> {
    check_constraints(constraints)?;
    let &head = file.first().ok_or(SHORT_FILE)?;
    demand(usize::from(head & 0x7f) == constraints, PRICE_COUNT)?;
    let used = PRICES_AT + 19 * constraints;
    demand(file.len() == used.div_ceil(8), FILE_LENGTH)?;
    demand(fields(file, PRICES_AT, 19, constraints).all(|price| price <= 500_000), PRICE_RANGE)?;
    demand(padding_is_zero(file, used), PADDING)?;
    demand(prices.len() >= constraints, SHORT_TABLE)?;
    for (price, value) in prices.iter_mut().zip(fields(file, PRICES_AT, 19, constraints)) {
        *price = value;
    }
    Ok(u64::from(head >> 7))
}

#[inline(never)]
pub fn write_prices(period: u64, constraints: usize, prices: &[u64], file: &mut [u8]) -> Result<usize, Refusal> {
    demand(period <= 1, PERIOD_OR_KIND)?;
    check_constraints(constraints)?;
    let prices = prices.get(..constraints).ok_or(SHORT_TABLE)?;
    check_prices(prices)?;
    let size = (PRICES_AT + 19 * constraints).div_ceil(8);
    let mut writer = Writer::new(file.get_mut(..size).ok_or(SHORT_TABLE)?);
    writer.put(period, 1);
    writer.put(constraints as u64, 7);
    for &price in prices {
        writer.put(price, 19);
    }
    writer.finish();
    Ok(size)
}
