//! Sharing a balance: by equal demands often, so that remainders tie; at the ends of the ranges and beyond them.

use super::{names, short, unless};
use crate::draw::Draw;
use crate::lent::Lent;
use crate::library;
use crate::second::shares::share;
use crate::second::Answer;
use crate::tally::Round;

const MOST: i64 = 1_000_000_000;
const WRONG_BALANCES: [i64; 8] = [MOST + 1, -MOST - 1, 1 << 32, -(1 << 32), (1 << 32) + 5, i64::MIN, i64::MIN + 1, i64::MAX];
const WRONG_DEMANDS: [u64; 6] = [MOST as u64 + 1, 1 << 32, (1 << 32) + 5, 1 << 63, (1 << 63) + 5, u64::MAX];
const WRONG_COUNTS: [usize; 5] = [0, 257, 258, 512, 1000];

/// The first rounds have the extremes.
const COUNTS: [usize; 7] = [256, 256, 256, 1, 2, 3, 255];
pub const ROUNDS: u64 = 10 * COUNTS.len() as u64;

pub const CASES: [&str; 15] = [
    "1 coordinator",
    "256 coordinators",
    "balance 10^9",
    "balance -10^9",
    "balance 0",
    "demands of 10^9 alone",
    "no leftover cent",
    "255 leftover cents",
    "a tie for the last cent",
    "a tie for the last cent, negative",
    "a coordinator without demand",
    "26 before 27",
    "26 before 9",
    "27 before 9",
    "26 before 27 and 9",
];

fn count(draw: &mut Draw, round: u64) -> usize {
    match COUNTS.get(round as usize % 100) {
        Some(&extreme) => extreme,
        None if draw.once_in(20) => draw.within(1, 256) as usize,
        None => draw.within(1, 9) as usize,
    }
}

/// Few different numbers, the ends of the range, and any.
fn demands(draw: &mut Draw, count: usize) -> Vec<u64> {
    let most = MOST as u64;
    let equal = 1 + draw.below(most);
    let kind = draw.below(6);
    let demand = |draw: &mut Draw| match kind {
        0 => equal,
        1 => draw.below(4),
        2 => draw.pick(&[0, 1, most - 1, most]),
        3 => draw.pick(&[0, equal, equal, most]),
        4 => draw.below(1000),
        _ => draw.below(most + 1),
    };
    (0..count).map(|_| demand(draw)).collect()
}

/// Few cents for each coordinator, so that many are left over; the ends of the range; any.
fn balance(draw: &mut Draw, count: usize) -> i64 {
    let size = match draw.below(6) {
        0 => draw.pick(&[0, 1, MOST - 1, MOST]),
        1 => count as i64 - 1,
        2 | 3 => draw.below(3 * count as u64 + 1) as i64,
        4 => draw.below(10_000) as i64,
        _ => draw.below(MOST as u64 + 1) as i64,
    };
    if draw.once_in(2) {
        -size
    } else {
        size
    }
}

/// Whether the shares add up, and each is less than a cent from its exact proportion.
fn fair(balance: i64, demands: &[u64], shares: &[i128]) -> bool {
    let balance = i128::from(balance);
    let total: i128 = demands.iter().map(|&demand| i128::from(demand)).sum();
    let near = |(&share, &demand): (&i128, &u64)| (share * total - balance * i128::from(demand)).abs() < total;
    shares.iter().sum::<i128>() == balance && shares.iter().zip(demands).all(near)
}

/// The size of each remainder, whether the coordinator got a leftover cent, and how many did.
fn remainders(balance: i64, demands: &[u64], shares: &[i128]) -> (Vec<(i128, bool)>, usize) {
    let balance = i128::from(balance);
    let total: i128 = demands.iter().map(|&demand| i128::from(demand)).sum();
    let of = |(&share, &demand): (&i128, &u64)| {
        let product = balance * i128::from(demand);
        ((product % total).abs(), share != product / total)
    };
    let all: Vec<(i128, bool)> = shares.iter().zip(demands).map(of).collect();
    let given = all.iter().filter(|(_, cent)| *cent).count();
    (all, given)
}

/// The cases that an accepted call shows.
fn accepted(balance: i64, demands: &[u64], shares: &[i128]) -> Vec<&'static str> {
    let (remainders, given) = remainders(balance, demands, shares);
    let tie = remainders.iter().any(|(size, cent)| *cent && remainders.contains(&(*size, false)));
    let shown = [
        demands.len() == 1,
        demands.len() == 256,
        balance == MOST,
        balance == -MOST,
        balance == 0,
        demands.iter().all(|&demand| demand == MOST as u64),
        given == 0,
        given == 255,
        tie && balance > 0,
        tie && balance < 0,
        demands.contains(&0),
        false,
        false,
        false,
        false,
    ];
    names(&CASES, shown)
}

/// The cases that a refused call shows: what else is wrong with it.
fn refused(number: u64, demands: &[u64], room: usize) -> Vec<&'static str> {
    let (none, small) = (!demands.is_empty() && demands.iter().all(|&demand| demand == 0), room < demands.len());
    let mut shown = [false; CASES.len()];
    shown[11] = number == 26 && none && !small;
    shown[12] = number == 26 && small && !none;
    shown[13] = number == 27 && small;
    shown[14] = number == 26 && none && small;
    names(&CASES, shown)
}

/// One call with so many cells for the shares; gives the second implementation's answer.
fn call(round: &mut Round, balance: i64, demands: &[u64], room: usize) -> Answer<Vec<i128>> {
    let mut shares = Lent::<i64>::new(&mut round.draw, "shares", room);
    let proved = library::share_balance(balance, demands, shares.slice());
    let second = share(balance, demands, room);
    let (number, cells, cases) = match &second {
        Ok(cells) => (0, &cells[..], accepted(balance, demands, cells)),
        Err(number) => (*number, &[][..], refused(*number, demands, room)),
    };
    let wrong = unless(number != 0 || fair(balance, demands, cells), "shares that are not fair");
    round.compare(proved, number, &[shares.difference(cells), wrong]);
    round.shown(&cases);
    second
}

/// A wrong figure, a wrong count, demands of 0 alone.
fn wrong(draw: &mut Draw, balance: &mut i64, demands: &mut Vec<u64>) {
    match draw.below(5) {
        0 => *balance = draw.pick(&WRONG_BALANCES),
        1 if !demands.is_empty() => {
            let place = draw.below(demands.len() as u64) as usize;
            demands[place] = draw.pick(&WRONG_DEMANDS);
        }
        2 => {
            let count = draw.pick(&WRONG_COUNTS);
            *demands = self::demands(draw, count);
        }
        _ => demands.fill(0),
    }
}

pub fn round(round: &mut Round) {
    let count = count(&mut round.draw, round.number);
    let (balance, demands) = (balance(&mut round.draw, count), demands(&mut round.draw, count));
    for room in [0, short(count), count, count + 1, count + 4] {
        let _ = call(round, balance, &demands, room);
    }
    // The shares of the opposite balance are the opposite shares.
    let [own, opposite] = [balance, -balance].map(|balance| call(round, balance, &demands, count));
    let turned = opposite.map(|shares| shares.iter().map(|share| -share).collect());
    round.same(own == turned, "the opposite balance");
    for _ in 0..8 {
        let (mut balance, mut demands) = (balance, demands.clone());
        for _ in 0..round.draw.within(1, 2) {
            wrong(&mut round.draw, &mut balance, &mut demands);
        }
        let room = if round.draw.once_in(2) { short(demands.len()) } else { demands.len() };
        let _ = call(round, balance, &demands, room);
    }
    // One cent more and one less: each leftover cent in turn.
    for balance in [balance - 1, balance + 1] {
        let _ = call(round, balance, &demands, count);
    }
}
