//! Sharing a balance, proved and plain: first compared, then timed.

use crate::entries::agree;
use crate::library;
use crate::plain;
use crate::splitmix::Draw;
use crate::timing::{side_by_side, Times};
use std::hint::black_box;

pub const MOST: usize = 256;

/// A balance and demands drawn at random within their ranges. About half of the coordinators get a leftover cent.
fn inputs(coordinators: usize) -> (i64, Vec<u64>) {
    let mut draw = Draw::new(2013);
    let balance = -(draw.below(1_000_000_001) as i64);
    (balance, (0..coordinators).map(|_| draw.below(1_000_000_001)).collect())
}

pub fn share_balance(coordinators: usize) -> Result<Times, String> {
    let (balance, demands) = inputs(coordinators);
    let (mut shares, mut plain_shares) = (vec![0; coordinators], vec![0; coordinators]);
    for balance in [balance, -balance, 0, 1, coordinators as i64 - 1] {
        let proved = library::share_balance(balance, &demands, &mut shares);
        let plain = plain::share_balance(balance, &demands, &mut plain_shares);
        agree(&(proved, Ok(())), &(0, plain))?;
        agree(&shares, &plain_shares)?;
        agree(&shares.iter().sum(), &balance)?;
    }
    Ok(side_by_side(
        &mut || {
            black_box(library::share_balance(balance, black_box(&demands), &mut shares));
        },
        &mut || {
            let _ = black_box(plain::share_balance(balance, black_box(&demands), &mut plain_shares));
        },
    ))
}
