//! The cases of load migration: what rows, loads and books show.

use super::*;
use crate::second::migration::{given, load_fails, loads_of, migrates};

/// What rows, loads and books show.
pub const CASES: [&str; 29] = [
    "no rows",
    "1,000 rows",
    "one LSE",
    "16 LSEs",
    "rows both ways that net to 0",
    "a pair with rows both ways",
    "several gainers",
    "a loser that gains",
    "losses equal to the load",
    "a load of 0 without losses",
    "a load of 10^12",
    "the whole of a quantity",
    "a fraction rounded down",
    "nought for one gainer",
    "a loser's option",
    "a loser's contract of the other period",
    "holder 0",
    "a holder above the LSEs",
    "equal ends",
    "a wide book",
    "1,000 contracts after growing",
    "nothing moves",
    "23 for a load of 0",
    "23 for a load above 0",
    "23 where gains would make up for it",
    "23 for a loser that holds nothing",
    "10 for 1,001 contracts",
    "a pass kept",
    "a fail kept",
];

/// The cases that lists show, apart from a book.
pub fn lists_show(lists: &Migration, square: &Square) -> Vec<&'static str> {
    let (rows, loads) = (rows_of(lists), loads_of(lists));
    let lses: Vec<i128> = (1..=square.lses()).collect();
    let back = |a: usize| rows.iter().find(|row| (row.old, row.new) == (rows[a].new, rows[a].old) && row.customers * row.rate > 0);
    let both: Vec<usize> = (0..rows.len().min(40)).filter(|&a| rows[a].customers * rows[a].rate > 0 && back(a).is_some()).collect();
    let gains = |lse: i128| lses.iter().any(|&other| square.gains(other).iter().any(|(gainer, _)| *gainer == lse));
    let mut shown = [false; CASES.len()];
    shown[0] = rows.is_empty();
    shown[1] = rows.len() == 1000;
    shown[2] = lses.len() == 1;
    shown[3] = lses.len() == 16;
    shown[4] = both.iter().any(|&a| square.between(rows[a].old, rows[a].new) == 0);
    shown[5] = both.iter().any(|&a| square.between(rows[a].old, rows[a].new) > 0);
    shown[6] = lses.iter().any(|&lse| square.gains(lse).len() > 1);
    shown[7] = lses.iter().any(|&lse| square.losses(lse) > 0 && gains(lse));
    shown[8] = lses.iter().any(|&lse| square.losses(lse) > 0 && square.losses(lse) == loads[lse as usize - 1]);
    shown[9] = lses.iter().any(|&lse| square.losses(lse) == 0 && loads[lse as usize - 1] == 0);
    shown[10] = lists.loads.contains(&MOST[2]);
    names(&CASES, shown)
}

/// The cases that an accepted call shows.
pub fn accepted(own: &Own, square: &Square, made: usize) -> Vec<&'static str> {
    let Own { form, period, lists, book, .. } = own;
    let loads = loads_of(lists);
    let losing = |contract: &Contract| (1..=square.lses()).contains(&contract.holder) && square.losses(contract.holder) > 0;
    let base = book.iter().filter(|contract| migrates(contract, (*period).into(), square.lses()) && losing(contract));
    let parts: Vec<(i128, Vec<Contract>, usize)> =
        base.map(|contract| (contract.quantity, given(contract, square, &loads), square.gains(contract.holder).len())).collect();
    let uneven = |contract: &Contract| {
        let load = loads[contract.holder as usize - 1];
        square.gains(contract.holder).iter().any(|(_, net)| contract.quantity * net % load != 0 && contract.quantity * net > load)
    };
    let mut shown = [false; CASES.len()];
    shown[11] = parts.iter().any(|(quantity, made, _)| made.iter().any(|contract| contract.quantity == *quantity));
    shown[12] = book.iter().any(|contract| migrates(contract, (*period).into(), square.lses()) && losing(contract) && uneven(contract));
    shown[13] = parts.iter().any(|(_, made, gainers)| !made.is_empty() && made.len() < 2 * gainers);
    shown[14] = book.iter().any(|contract| losing(contract) && contract.kind == 1 && contract.period == (*period).into());
    shown[15] = book.iter().any(|contract| losing(contract) && contract.kind == 0 && contract.period != (*period).into());
    shown[16] = made > 0 && book.iter().any(|contract| contract.holder == 0);
    shown[17] = made > 0 && book.iter().any(|contract| contract.holder > square.lses());
    shown[18] = parts.iter().any(|(_, made, _)| made.iter().any(|contract| contract.source == contract.sink));
    shown[19] = made > 0 && *form == Form::Wide;
    shown[20] = made > 0 && book.len() + made == 1000;
    shown[21] = made == 0 && !lists.olds.is_empty() && !book.is_empty();
    names(&CASES, shown)
}

/// The cases that 23 shows.
pub fn exceeded(own: &Own, square: &Square) -> Vec<&'static str> {
    let loads = loads_of(&own.lists);
    let failing: Vec<i128> = (1..=square.lses()).filter(|&lse| load_fails(square, &loads, lse)).collect();
    let gained = |lse: i128| (1..=square.lses()).map(|other| square.between(other, lse).max(0)).sum::<i128>();
    let mut shown = [false; CASES.len()];
    shown[22] = failing.iter().any(|&lse| loads[lse as usize - 1] == 0);
    shown[23] = failing.iter().any(|&lse| loads[lse as usize - 1] > 0);
    shown[24] = failing.iter().all(|&lse| square.losses(lse) - gained(lse) <= loads[lse as usize - 1]);
    shown[25] = failing.iter().all(|&lse| own.book.iter().all(|contract| contract.holder != lse));
    names(&CASES, shown)
}
