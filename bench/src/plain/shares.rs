use super::*;

const MOST: u64 = 1_000_000_000;

/// Puts one share for each demand into the first cells of `shares`.
#[inline(never)]
pub fn share_balance(balance: i64, demands: &[u64], shares: &mut [i64]) -> Result<(), Refusal> {
    demand((1..=MAX_COORDINATORS).contains(&demands.len()), SHARE_RANGE)?;
    demand(balance.unsigned_abs() <= MOST, SHARE_RANGE)?;
    demand(!demands.iter().fold(false, |bad, &demand| bad | (demand > MOST)), SHARE_RANGE)?;
    let total: u64 = demands.iter().sum();
    demand(total > 0, NO_DEMAND)?;
    let shares = shares.get_mut(..demands.len()).ok_or(SHORT_TABLE)?;
    let (size, sign) = (balance.unsigned_abs(), balance.signum());
    // A remainder and the place that decides between equal ones, as one number.
    let mut keys = [0; MAX_COORDINATORS];
    let keys = &mut keys[..demands.len()];
    let mut left = size;
    for (place, ((&demand, share), key)) in demands.iter().zip(&mut *shares).zip(&mut *keys).enumerate() {
        let (whole, rest) = (size * demand / total, size * demand % total);
        left -= whole;
        *share = whole as i64 * sign;
        *key = rest << 8 | (255 - place as u64);
    }
    if left > 0 {
        let mut ordered = [0; MAX_COORDINATORS];
        let ordered = &mut ordered[..demands.len()];
        ordered.copy_from_slice(keys);
        let (_, &mut least, _) = ordered.select_nth_unstable(demands.len() - left as usize);
        for (share, &key) in shares.iter_mut().zip(&*keys) {
            *share += sign * i64::from(key >= least);
        }
    }
    Ok(())
}
