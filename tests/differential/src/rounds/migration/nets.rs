//! The square of nets by itself: every fault alone, with a place that is too short and with others; each net the opposite of its mirror.

use super::*;
use crate::second::migration::net_transfers;

pub const CASES: [&str; 9] = [
    "no rows",
    "1,000 rows",
    "one LSE",
    "16 LSEs",
    "rows that net to 0",
    "the largest net",
    "the largest net back",
    "a place of just as many cells",
    "22 before 9",
];

const WRONG_LSES: [usize; 7] = [0, 17, 18, 256, 1 << 32, 1 << 63, usize::MAX];

#[derive(Clone)]
struct Nets {
    lses: usize,
    lists: Migration,
    room: usize,
}

/// One call. Gives the second implementation's answer.
fn call(round: &mut Round, asked: &Nets) -> Answer<Vec<i128>> {
    let Nets { lses, lists, room } = asked;
    let second = net_transfers(*lses, lists, *room);
    let mut nets = Lent::<i64>::new(&mut round.draw, "nets", *room);
    let proved = library::net_transfers(*lses, lists, nets.slice());
    let (number, written) = second.as_ref().map_or_else(|number| (*number, &[][..]), |nets| (0, &nets[..]));
    round.compare(proved, number, &[nets.difference(written)]);
    second
}

/// What an accepted square shows.
fn shows(asked: &Nets, nets: &[i128]) -> Vec<&'static str> {
    let Nets { lses, lists, room } = asked;
    let (rows, moved) = (lists.customers.len(), lists.customers.iter().zip(&lists.rates).any(|(customers, rate)| customers * rate > 0));
    let most = 1000 * i128::from(MOST[0] * MOST[1]);
    let at = |net: i128| nets.contains(&net);
    let shown = [
        rows == 0,
        rows == 1000,
        *lses == 1,
        *lses == 16,
        moved && nets.iter().all(|&net| net == 0),
        at(most),
        at(-most),
        *room == lses * lses,
        false,
    ];
    names(&CASES, shown)
}

/// A list of rows, one LSE count and place; the extremes have the most rows, all one way.
fn own(draw: &mut Draw, number: u64) -> Nets {
    let (lses, count) = match number % 100 {
        0 => (16, 1000),
        1 => (2, 1000),
        2 => (1, 0),
        _ => (draw.pick(&[1, 2, 2, 3, 4, 5, 15, 16]), draw.pick(&[0, 1, 2, 2, 3, 5, 9])),
    };
    let mut lists = rows(draw, lses, count);
    if number % 100 == 1 {
        lists.customers.fill(MOST[0]);
        lists.rates.fill(MOST[1]);
        lists.olds.fill(1);
        lists.news.fill(2);
    }
    lists.loads = vec![0; lses as usize];
    let room = (lses * lses) as usize + draw.pick(&[0, 0, 1, 16]);
    Nets { lses: lses as usize, lists, room }
}

/// The lists read backwards, and other classes, give the same.
fn turned(round: &mut Round, own: &Nets, nets: &[i128]) {
    let mut asked = own.clone();
    for list in [&mut asked.lists.customers, &mut asked.lists.rates, &mut asked.lists.olds, &mut asked.lists.news] {
        list.reverse();
    }
    asked.lists.classes = round.draw.bytes(asked.lists.classes.len());
    let same = call(round, &asked);
    round.same(same.as_deref() == Ok(nets), "rows in another order");
    std::mem::swap(&mut asked.lists.olds, &mut asked.lists.news);
    let back: Vec<i128> = nets.iter().map(|net| -net).collect();
    let opposite = call(round, &asked);
    round.same(opposite.as_deref() == Ok(&back), "rows the other way");
}

/// One thing wrong with the rows or the number of LSEs, and the place too short as well.
fn wrong(round: &mut Round, own: &Nets, way: u64) {
    let mut asked = own.clone();
    // of the ways to draw 22 the last three are the loads'
    if way < WRONG_LISTS - 3 {
        wrong_lists(&mut round.draw, &mut asked.lists, way);
        if asked.lists.loads != own.lists.loads {
            return;
        }
    } else {
        asked.lses = round.draw.pick(&WRONG_LSES);
    }
    for room in [asked.room, short(asked.room)] {
        let answer = call(round, &Nets { room, ..asked.clone() });
        round.same(answer == Err(22), "one thing wrong");
        round.shown(if room == 0 || room < own.lses * own.lses { &CASES[8..] } else { &[] });
    }
}

pub fn round(round: &mut Round) {
    let own = own(&mut round.draw, round.number);
    if let Ok(nets) = call(round, &own) {
        round.shown(&shows(&own, &nets));
        let lses = own.lses;
        let mirrored = (0..lses * lses).all(|at| nets[at] == -nets[at % lses * lses + at / lses]);
        round.same(mirrored, "each the opposite of its mirror");
        turned(round, &own, &nets);
    }
    for room in [0, own.lses * own.lses - 1, own.lses * own.lses] {
        let _ = call(round, &Nets { room, ..own.clone() });
    }
    for way in 0..WRONG_LISTS {
        wrong(round, &own, way);
    }
    for _ in 0..4 {
        let mut asked = own.clone();
        for _ in 0..round.draw.within(1, 3) {
            match round.draw.below(3) {
                0 => asked.lses = round.draw.pick(&WRONG_LSES),
                1 => asked.room = short(asked.room),
                _ => {
                    let way = round.draw.below(WRONG_LISTS);
                    wrong_lists(&mut round.draw, &mut asked.lists, way)
                }
            }
        }
        let _ = call(round, &asked);
    }
}
