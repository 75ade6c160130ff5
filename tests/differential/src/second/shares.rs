//! Paper 13, by exact fractions whose denominator is the total of the demands, and cents that are handed out one at a time.

use super::{first, Answer};

const MOST: i128 = 1_000_000_000;

/// What is left of a coordinator's exact proportion after rounding, in so many of the total; none where a leftover cent was given.
type Remainders = Vec<Option<i128>>;

/// The largest remainder in size that has no cent yet, the lower number where two are equal.
fn next(remainders: &Remainders) -> usize {
    let mut found: Option<(usize, i128)> = None;
    for (number, remainder) in remainders.iter().enumerate() {
        if let Some(remainder) = remainder {
            if found.map_or(true, |(_, largest)| remainder.abs() > largest) {
                found = Some((number, remainder.abs()));
            }
        }
    }
    found.expect("there are fewer leftover cents than coordinators").0
}

/// The shares of coordinators whose demands do not all vanish.
fn shares(balance: i128, demands: &[i128]) -> Vec<i128> {
    let total: i128 = demands.iter().sum();
    // Division of signed numbers rounds towards zero, and the remainder has the balance's sign.
    let mut shares: Vec<i128> = demands.iter().map(|demand| balance * demand / total).collect();
    let mut remainders: Remainders = demands.iter().map(|demand| Some(balance * demand % total)).collect();
    while shares.iter().sum::<i128>() != balance {
        let number = next(&remainders);
        shares[number] += balance.signum();
        remainders[number] = None;
    }
    shares
}

/// 26: counts and numbers outside their ranges; 27: demands that total 0; 9: fewer cells than coordinators.
pub fn share(balance: i64, demands: &[u64], room: usize) -> Answer<Vec<i128>> {
    let balance = i128::from(balance);
    let demands: Vec<i128> = demands.iter().map(|&demand| demand.into()).collect();
    first(&[
        (!(1..=256).contains(&demands.len()), 26),
        (!(-MOST..=MOST).contains(&balance), 26),
        (demands.iter().any(|&demand| demand > MOST), 26),
        (demands.iter().sum::<i128>() == 0, 27),
        (room < demands.len(), 9),
    ])?;
    Ok(shares(balance, &demands))
}
