//! Load migration: rows, loads and books of both forms; every fault alone, each with every later one, and some together; what the transfer keeps.

mod cases;
pub mod nets;

use super::*;
use crate::draw::{self, Size};
use crate::lent::Lent;
use crate::library::{self, Migration};
use crate::second::book::{self, record, Contract};
use crate::second::grid::Grid;
use crate::second::migration::{migrate, migrated, rows_of, Square};
use crate::tally::Round;
use cases::{accepted, exceeded, lists_show};

pub use cases::CASES;

const MOST: [u64; 3] = [1_000_000, 10_000, 1_000_000_000_000];

#[derive(Clone)]
struct Asked {
    nodes: usize,
    period: u64,
    book: Vec<u8>,
    lists: Migration,
    room: usize,
}

/// What a valid call is made of.
struct Own {
    size: Size,
    form: Form,
    period: u64,
    lists: Migration,
    book: Vec<Contract>,
}

impl Own {
    /// The call on the book, into a place for the longest.
    fn asked(&self) -> Asked {
        let Own { size, form, period, lists, book } = self;
        Asked { nodes: size.nodes as usize, period: *period, book: book::file_of(*form, book), lists: lists.clone(), room: 7_002 }
    }

    /// How many contracts would be made.
    fn made(&self) -> usize {
        migrated(&self.book, self.period.into(), &self.lists).map_or(0, |made| made.len())
    }

    /// With options before, between and behind the contracts, up to so many.
    fn filled(&self, draw: &mut Draw, count: usize) -> Vec<Contract> {
        let mut book = self.book.clone();
        while book.len() < count {
            let holder = draw.within(0, 17);
            let option = Contract { kind: 1, period: draw.within(0, 1), holder, source: 0, sink: 0, quantity: 1 };
            book.insert(draw.below(book.len() as u64 + 1) as usize, option);
        }
        book
    }
}

/// One call; the old bytes stay in front of the new ones. Gives the second implementation's answer.
fn call(round: &mut Round, asked: &Asked) -> Answer<Vec<u8>> {
    let Asked { nodes, period, book, lists, room } = asked;
    let second = migrate(*nodes, *period, book, lists, *room);
    let mut file = Lent::<u8>::new(&mut round.draw, "file", *room);
    let mut bytes = Lent::<usize>::new(&mut round.draw, "bytes", 1);
    let proved = library::migrate_load(*nodes, *period, book, lists, file.slice(), bytes.figure());
    let (number, written) = written(&second);
    let count: Vec<i128> = second.iter().map(|file| file.len() as i128).collect();
    let stays = proved != 0 || (file.slice().len() >= book.len() && file.slice()[2..book.len()] == book[2..]);
    round.compare(proved, number, &[file.difference(&written), bytes.difference(&count), unless(stays, "the old bytes do not stay")]);
    second
}

fn figure(draw: &mut Draw, most: u64, likely: &[u64]) -> u64 {
    match draw.below(8) {
        0 => 0,
        1 => most,
        2 | 3 => draw.below(most + 1),
        _ => draw.pick(likely),
    }
}

/// Rows among so many LSEs: small, any, or the largest; some are followed by one back.
fn rows(draw: &mut Draw, lses: u64, count: usize) -> Migration {
    let mut lists = Migration { classes: draw.bytes(count), ..Migration::default() };
    let style = draw.below(4);
    while lists.customers.len() < count && lses > 1 {
        let (old, new) = (1 + draw.below(lses), 1 + draw.below(lses));
        if old == new {
            continue;
        }
        let back = lists.olds.last().zip(lists.news.last()).map(|(&old, &new)| (new, old)).filter(|_| draw.once_in(5));
        let (old, new) = back.unwrap_or((old, new));
        let (customers, rate) = match style {
            0 => (MOST[0], MOST[1]),
            1 => (figure(draw, MOST[0], &[1, 4, 5, 35, 200]), figure(draw, MOST[1], &[1, 5, 10, 200, 800])),
            _ => (draw.pick(&[0, 1, 2, 3, 10, 20]), draw.pick(&[1, 1, 2, 5])),
        };
        lists.customers.push(customers);
        lists.rates.push(rate);
        lists.olds.push(old);
        lists.news.push(new);
    }
    lists.classes.truncate(lists.customers.len());
    lists
}

/// A load for each LSE, mostly at its losses or above; sometimes the losses are more.
fn loads(draw: &mut Draw, lists: &Migration, lses: u64) -> Vec<u64> {
    let square = Square::new(&rows_of(lists), lses.into());
    let short = draw.once_in(5);
    let load = |draw: &mut Draw, lse: u64| {
        let losses = square.losses(lse.into()) as u64;
        let load = match draw.below(7) {
            _ if short && draw.once_in(2) => draw.pick(&[0, losses / 2, losses.saturating_sub(1)]),
            0 | 1 => losses,
            2 => losses + 1,
            3 => 2 * losses,
            4 => losses + draw.below(losses + 10),
            5 => MOST[2],
            _ => 10 * losses,
        };
        load.min(MOST[2])
    };
    (1..=lses).map(|lse| load(draw, lse)).collect()
}

/// A book whose contracts are mostly the LSEs' obligations of the period.
fn book(draw: &mut Draw, size: Size, form: Form, period: u64, lses: u64) -> Vec<Contract> {
    let mut book = draw::book(draw, size, form);
    for contract in &mut book {
        if !draw.once_in(6) {
            (contract.kind, contract.period) = (0, period.into());
        }
        if !draw.once_in(8) {
            contract.holder = draw.within(0, i128::from(lses) + 1);
        }
    }
    book
}

/// The extremes have the most rows or LSEs, and some of the largest books; other rounds are mostly small.
fn own(draw: &mut Draw, number: u64) -> Own {
    let size = draw::size(draw, number);
    let form = draw.form_of(number);
    let (lses, count) = match number {
        0 | 7 => (16, 1000),
        1 | 6 => (2, 1000),
        2 => (1, 0),
        _ => (draw.pick(&[1, 2, 2, 3, 3, 4, 4, 5, 16]), if draw.once_in(60) { 1000 } else { draw.below(9) as usize }),
    };
    let mut lists = rows(draw, lses, count);
    lists.loads = loads(draw, &lists, lses);
    let period = draw.below(2);
    let mut own = Own { size, form, period, lists, book: book(draw, size, form, period, lses) };
    // of every second large book only so much that it can grow
    while number.is_multiple_of(2) && own.book.len() + own.made() > 1000 {
        own.book.truncate(own.book.len() / 2);
    }
    own
}

/// A valid call, and the cases that it shows.
fn valid(round: &mut Round, own: &Own) -> Answer<Vec<u8>> {
    let square = Square::new(&rows_of(&own.lists), own.lists.loads.len() as i128);
    round.shown(&lists_show(&own.lists, &square));
    let answer = call(round, &own.asked());
    match &answer {
        Ok(_) => round.shown(&accepted(own, &square, own.made())),
        Err(23) => round.shown(&exceeded(own, &square)),
        Err(_) => round.shown(if own.book.len() + own.made() == 1001 { &CASES[26..27] } else { &[] }),
    }
    answer
}

fn shorter<T>(list: &mut Vec<T>) {
    list.truncate(short(list.len()));
}

/// So many ways to draw 22, each by itself.
const WRONG_LISTS: u64 = 16;

/// One of them; a load where there is no row to take it of.
fn wrong_lists(draw: &mut Draw, lists: &mut Migration, way: u64) {
    let Migration { classes, customers, rates, olds, news, loads } = lists;
    let rows = [classes.len(), customers.len(), rates.len(), olds.len(), news.len()].into_iter().min().unwrap_or(0);
    let at = draw.below(rows.max(1) as u64) as usize;
    let far = [loads.len() as u64 + 1, 0, 17, 1 << 32, 1 << 63, u64::MAX];
    match way {
        0 if rows > 0 => customers[at] = draw.pick(&[MOST[0] + 1, 1 << 32, 1 << 63, u64::MAX]),
        1 if rows > 0 => rates[at] = draw.pick(&[MOST[1] + 1, 1 << 32, 1 << 63, u64::MAX]),
        2 if rows > 0 => olds[at] = draw.pick(&far),
        3 if rows > 0 => news[at] = draw.pick(&far),
        4 if rows > 0 => olds[at] = news[at],
        5 if rows > 0 => shorter([customers, rates, olds, news][at % 4]),
        6 if rows > 0 => shorter(classes),
        7 if rows > 0 => {
            classes.resize(1001, 7);
            for list in [customers, rates, olds, news] {
                list.resize(1001, list[list.len() - 1]);
            }
        }
        8 => classes.push(7),
        9 => customers.push(0),
        10 => rates.push(0),
        11 => olds.push(1),
        12 => news.push(1),
        13 => loads.clear(),
        14 => loads.resize(17 + draw.below(3) as usize, 0),
        _ => loads.iter_mut().for_each(|load| *load = draw.pick(&[MOST[2] + 1, 1 << 63, u64::MAX])),
    }
}

/// A load below the losses, where an LSE has any.
fn wrong_load(draw: &mut Draw, own: &Own, asked: &mut Asked) {
    let square = Square::new(&rows_of(&own.lists), own.lists.loads.len() as i128);
    for (lse, load) in (1..).zip(&mut asked.lists.loads).take(own.lists.loads.len()) {
        if square.losses(lse) > 0 {
            *load = draw.pick(&[0, square.losses(lse) as u64 - 1]);
        }
    }
}

type Fault = fn(&mut Draw, &Own, &mut Asked);

/// A fault for each check, the last check first. Each leaves those before it as they are, so that a call fails at its own check and at every later one.
const LADDER: [(u64, Fault); 12] = [
    (9, |_, _, asked| asked.room = asked.book.len() + 1),
    (10, |draw, own, asked| asked.book = book::file_of(own.form, &own.filled(draw, 1001 - own.made()))),
    (23, wrong_load),
    (22, |draw, _, asked| {
        let way = draw.below(WRONG_LISTS);
        wrong_lists(draw, &mut asked.lists, way)
    }),
    (13, |_, own, asked| last_record(own, asked).fill(0)),
    (11, |_, own, asked| last_record(own, asked)[1..3].fill(255)),
    (5, |_, _, asked| shorter(&mut asked.book)),
    (4, |draw, _, asked| asked.book[1] = asked.book[1] & !63 | draw.within(1, 62) as u8),
    (10, |_, _, asked| asked.book[0] = 255),
    (1, |_, _, asked| asked.book.truncate(1)),
    (2, |draw, _, asked| asked.nodes = draw.pick(&WRONG_NODES)),
    (17, |draw, _, asked| asked.period = draw.pick(&WRONG_PERIODS)),
];

fn last_record<'a>(own: &Own, asked: &'a mut Asked) -> &'a mut [u8] {
    let start = asked.book.len() - record(own.form);
    &mut asked.book[start..]
}

/// Each fault with those of every later check, in a book that load migrates in.
fn ladder(round: &mut Round, own: &Own) {
    let mut asked = own.asked();
    for (number, fault) in LADDER {
        fault(&mut round.draw, own, &mut asked);
        // a narrow book's ends may all be nodes
        if number == 11 && own.form == Form::Narrow && own.size.nodes > 255 {
            continue;
        }
        let answer = call(round, &asked);
        round.same(answer == Err(number), "a fault and all later ones");
    }
}

/// One thing wrong, or a place of another length.
fn wrong(draw: &mut Draw, own: &Own, asked: &mut Asked) {
    match draw.below(8) {
        0 => asked.nodes = draw.pick(&WRONG_NODES),
        1 => asked.period = draw.pick(&WRONG_PERIODS),
        2 => asked.book = super::book::out_of_range(draw, own.form, &own.book, own.size.nodes),
        3 | 4 => {
            let way = draw.below(WRONG_LISTS);
            wrong_lists(draw, &mut asked.lists, way)
        }
        5 => wrong_load(draw, own, asked),
        _ => asked.room = draw.pick(&[0, 1, asked.book.len().saturating_sub(1), asked.book.len(), asked.book.len() + record(own.form)]),
    }
}

/// What a book comes to on a grid in one period: flows, the test's figures by process, and the exact total as whole cents and parts.
type Figures = (u64, Vec<i64>, Vec<[i128; 4]>, (i64, u64));

fn figures(grid: &Grid, prices: &[u64], period: u64, book: &[u8]) -> Figures {
    let (nodes, constraints) = (grid.nodes as usize, grid.constraints as usize);
    let limits: Vec<u64> = grid.limits.iter().map(|&limit| limit as u64).collect();
    let factors: Vec<i64> = grid.factors.concat().iter().map(|&factor| factor as i64).collect();
    let (mut flows, mut counted) = (vec![0; constraints], 0);
    let mut number = library::find_flows(nodes, constraints, period, &limits, &factors, book, &mut flows, &mut counted);
    let mut tested = Vec::new();
    for process in 0..3 {
        let (mut set, mut count, mut lowest, mut excess) = (0, 0, 0, 0);
        number += library::test_book(
            nodes,
            constraints,
            process,
            period,
            &limits,
            &factors,
            book,
            &mut set,
            &mut count,
            &mut lowest,
            &mut excess,
        );
        tested.push([set.into(), count as i128, lowest as i128, excess.into()]);
    }
    let (mut cents, mut priced, mut sum, mut whole, mut parts) = (vec![0; 1000], vec![0; 1000], 0, 0, 0);
    number +=
        library::settle_hour(nodes, constraints, period, &factors, prices, book, &mut cents, &mut priced, &mut sum, &mut whole, &mut parts);
    (number, flows, tested, (whole, parts))
}

/// Flows, verdicts and exact totals of both periods are the old book's.
fn kept(round: &mut Round, own: &Own, old: &[u8], new: &[u8]) {
    let grid = draw::grid(&mut round.draw, own.size);
    let prices: Vec<u64> = draw::prices(&mut round.draw, own.size.constraints).iter().map(|&price| price as u64).collect();
    for period in [0, 1] {
        let [before, after] = [old, new].map(|book| figures(&grid, &prices, period, book));
        round.same(before.0 == 0 && before == after, "flows, verdicts and exact total of the new book");
        let fails = before.2[2][0] != 0;
        round.shown(if new.len() == old.len() || period != own.period {
            &[]
        } else if fails {
            &CASES[28..]
        } else {
            &CASES[27..28]
        });
    }
}

/// What leaves the answer as it is: rows in another order, other classes, the other form; and months that follow.
fn same(round: &mut Round, own: &Own, file: &[u8]) {
    let asked = own.asked();
    let mut lists = own.lists.clone();
    for list in [&mut lists.customers, &mut lists.rates, &mut lists.olds, &mut lists.news] {
        list.reverse();
    }
    lists.classes = round.draw.bytes(lists.classes.len());
    let turned = call(round, &Asked { lists, ..asked.clone() });
    round.same(turned.as_deref() == Ok(file), "rows in another order");
    let contracts = |file: &[u8]| book::parse(4000, file).map(|(_, book)| book);
    if own.book.iter().all(|contract| contract.source.max(contract.sink) < 256) {
        let files = [Form::Narrow, Form::Wide].map(|form| book::file_of(form, &own.book));
        let both = files.map(|book| call(round, &Asked { book, ..asked.clone() }).and_then(|file| contracts(&file)));
        round.same(both[0] == both[1] && both[0] == contracts(file), "one book in both forms");
    }
    let mut book = file.to_vec();
    for month in 0..2 {
        let next = call(round, &Asked { book: book.clone(), period: (own.period + month) % 2, ..asked.clone() });
        book = next.unwrap_or(book);
    }
}

/// Books that grow to 1,000 contracts and to one more, and the ladder of faults.
fn grown_full(round: &mut Round, own: Own) {
    let made = own.made();
    if made == 0 || own.book.len() + made > 1000 {
        return;
    }
    ladder(round, &own);
    for count in [1000, 1001] {
        let book = own.filled(&mut round.draw, count - made);
        let Own { size, form, period, ref lists, .. } = own;
        let _ = valid(round, &Own { size, form, period, lists: lists.clone(), book });
    }
}

pub fn round(round: &mut Round) {
    let own = own(&mut round.draw, round.number);
    let answer = valid(round, &own);
    let asked = own.asked();
    if let Ok(file) = &answer {
        for room in [0, short(file.len()), file.len(), file.len() + 1, asked.book.len()] {
            let _ = call(round, &Asked { room, ..asked.clone() });
        }
        same(round, &own, file);
        kept(round, &own, &asked.book, file);
    }
    for way in 0..WRONG_LISTS {
        let mut asked = asked.clone();
        wrong_lists(&mut round.draw, &mut asked.lists, way);
        let answer = call(round, &asked);
        round.same(answer == Err(22), "one list wrong");
    }
    for _ in 0..12 {
        let mut asked = asked.clone();
        for _ in 0..round.draw.within(1, 3) {
            wrong(&mut round.draw, &own, &mut asked);
        }
        let _ = call(round, &asked);
    }
    if own.book.len() < 200 {
        let books = [damaged(&mut round.draw, &asked.book, 16), super::book::too_many(&mut round.draw).to_vec()].concat();
        for book in books {
            let _ = call(round, &Asked { book, ..asked.clone() });
        }
    }
    if round.number.is_multiple_of(3) {
        grown_full(round, own);
    }
}
