//! Reading and writing prices.

use super::*;
use crate::draw;
use crate::lent::Lent;
use crate::library;
use crate::second::prices;
use crate::tally::Round;

fn read_call(round: &mut Round, constraints: usize, file: &[u8], room: usize) {
    let second = prices::read(constraints, file, room);
    let mut cells = Lent::<u64>::new(&mut round.draw, "prices", room);
    let mut period = Lent::<u64>::new(&mut round.draw, "period", 1);
    let proved = library::read_prices(constraints, file, cells.slice(), period.figure());
    let (number, hour, list) = match second {
        Ok((period, list)) => (0, vec![period], list),
        Err(number) => (number, Vec::new(), Vec::new()),
    };
    round.compare(proved, number, &[cells.difference(&list), period.difference(&hour)]);
}

/// A file with a price that its field holds and its range does not.
pub fn out_of_range(draw: &mut Draw, list: &[i128]) -> Vec<u8> {
    let mut list = list.to_vec();
    let count = list.len();
    spoil(draw, &mut list, count, &[500_001, 524_287]);
    prices::file_of(draw.within(0, 1), &list)
}

pub fn read(round: &mut Round) {
    let size = draw::size(&mut round.draw, round.number);
    let list = draw::prices(&mut round.draw, size.constraints);
    let constraints = list.len();
    let period = round.draw.within(0, 1);
    let file = prices::file_of(period, &list);
    for room in [constraints, constraints + 1, constraints + 9, short(constraints), 0] {
        read_call(round, constraints, &file, room);
    }
    for wrong in WRONG_CONSTRAINTS.into_iter().chain([0, short(constraints), constraints + 1]) {
        read_call(round, wrong, &file, constraints);
    }
    let count = round.draw.within(65, 127);
    let too_many = prices::file_of(period, &draw::prices(&mut round.draw, count));
    read_call(round, count as usize, &too_many, 127);
    for cut in cuts(&file) {
        read_call(round, constraints, cut, constraints);
    }
    let mut files = damaged(&mut round.draw, &file, 8);
    files.extend((0..6).map(|_| out_of_range(&mut round.draw, &list)));
    for file in files {
        let constraints = if round.draw.once_in(12) { round.draw.pick(&WRONG_CONSTRAINTS) } else { constraints };
        let room = if round.draw.once_in(4) { short(list.len()) } else { list.len() };
        read_call(round, constraints, &file, room);
    }
}

struct Table {
    period: u64,
    constraints: usize,
    cells: Vec<u64>,
    room: usize,
}

fn write_call(round: &mut Round, asked: &Table) {
    let Table { period, constraints, cells, room } = asked;
    let second = prices::write(*period, *constraints, cells, *room);
    let mut file = Lent::<u8>::new(&mut round.draw, "file", *room);
    let mut bytes = Lent::<usize>::new(&mut round.draw, "bytes", 1);
    let proved = library::write_prices(*period, *constraints, cells, file.slice(), bytes.figure());
    let (number, written) = written(&second);
    let count = second.map(|file| vec![file.len() as i128]).unwrap_or_default();
    round.compare(proved, number, &[file.difference(&written), bytes.difference(&count)]);
}

/// One thing wrong.
fn wrong(draw: &mut Draw, asked: &mut Table, bytes: usize) {
    match draw.below(6) {
        0 => asked.period = draw.pick(&WRONG_PERIODS),
        1 => asked.constraints = draw.pick(&WRONG_CONSTRAINTS),
        2 => asked.cells.truncate(short(asked.constraints.min(asked.cells.len()))),
        3 => spoil(draw, &mut asked.cells, asked.constraints, &WRONG_PRICES),
        4 => asked.room = draw.pick(&[bytes - 1, 0, bytes / 2]),
        _ => asked.room = bytes + draw.below(9) as usize,
    }
}

pub fn write(round: &mut Round) {
    let size = draw::size(&mut round.draw, round.number);
    let list = draw::prices(&mut round.draw, size.constraints);
    let bytes = prices::file_of(0, &list).len();
    for call in 0..24 {
        let cells = table(&mut round.draw, &list, |price| price as u64, u64::MAX);
        let period = round.draw.below(2);
        let mut asked = Table { period, constraints: list.len(), cells, room: bytes };
        for _ in 0..if call < 2 { 0 } else { round.draw.within(1, 3) } {
            wrong(&mut round.draw, &mut asked, bytes);
        }
        write_call(round, &asked);
    }
}
