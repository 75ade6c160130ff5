//! Finding the MCC and settling hours.

use super::priced::{cases, Priced};
use super::*;
use crate::draw::{self, Size};
use crate::lent::Lent;
use crate::library;
use crate::second::book::{self, Contract};
use crate::second::grid::Grid;
use crate::second::set_of;
use crate::second::settlement::{find_mcc, settle, Asked, Hour};
use crate::second::test::of_period;
use crate::tally::Round;

#[derive(Clone)]
struct Tables {
    nodes: usize,
    constraints: usize,
    period: u64,
    factors: Vec<i64>,
    prices: Vec<u64>,
    book: Vec<u8>,
    /// Cells for the MCC or the cents, and for the sets.
    room: usize,
    priced_room: usize,
}

impl Tables {
    fn asked(&self) -> Asked<'_> {
        let Tables { nodes, constraints, period, factors, prices, book, .. } = self;
        Asked { nodes: *nodes, constraints: *constraints, period: *period, factors, prices, book }
    }
}

fn mcc_call(round: &mut Round, asked: &Tables) {
    let second = find_mcc(&asked.asked(), asked.room);
    let mut cells = Lent::<i64>::new(&mut round.draw, "mcc", asked.room);
    let proved = library::find_mcc(asked.nodes, asked.constraints, &asked.factors, &asked.prices, cells.slice());
    let (number, written) = match second {
        Ok(mcc) => (0, mcc),
        Err(number) => (number, Vec::new()),
    };
    round.compare(proved, number, &[cells.difference(&written)]);
}

/// One call; gives the second implementation's answer.
fn settle_call(round: &mut Round, asked: &Tables) -> Answer<Hour> {
    let second = settle(&asked.asked(), asked.room, asked.priced_room);
    let Tables { nodes, constraints, period, factors, prices, book, room, priced_room } = asked;
    let mut cents = Lent::<i64>::new(&mut round.draw, "cents", *room);
    let mut priced = Lent::<u64>::new(&mut round.draw, "priced", *priced_room);
    let mut sum = Lent::<i64>::new(&mut round.draw, "sum", 1);
    let mut whole = Lent::<i64>::new(&mut round.draw, "whole", 1);
    let mut parts = Lent::<u64>::new(&mut round.draw, "parts", 1);
    let (own, lent) = ((cents.slice(), priced.slice()), (sum.figure(), whole.figure(), parts.figure()));
    let proved = library::settle_hour(*nodes, *constraints, *period, factors, prices, book, own.0, own.1, lent.0, lent.1, lent.2);
    let (number, written, sets, figures) = match &second {
        Ok(hour) => {
            let sets = hour.priced.iter().map(|own| set_of(own)).collect();
            (0, hour.cents.clone(), sets, [vec![hour.sum], vec![hour.whole], vec![hour.parts]])
        }
        Err(number) => (*number, Vec::new(), Vec::new(), Default::default()),
    };
    let differences = [
        cents.difference(&written),
        priced.difference(&sets),
        sum.difference(&figures[0]),
        whole.difference(&figures[1]),
        parts.difference(&figures[2]),
    ];
    round.compare(proved, number, &differences);
    second
}

/// One book in both forms, where its ends fit both: the same answers.
fn both_forms(round: &mut Round, asked: &Tables, book: &[Contract]) {
    let [narrow, wide] =
        [Form::Narrow, Form::Wide].map(|form| settle_call(round, &Tables { book: book::file_of(form, book), ..asked.clone() }));
    round.same(narrow == wide, "one book in both forms");
}

/// One thing wrong; the last three are for settling alone.
fn wrong(draw: &mut Draw, asked: &mut Tables, size: Size, own: (Form, &[Contract]), kinds: u64) {
    let cells = asked.factors.len().min(asked.nodes.saturating_mul(asked.constraints));
    match draw.below(kinds) {
        0 => asked.nodes = draw.pick(&WRONG_NODES),
        1 => asked.constraints = draw.pick(&WRONG_CONSTRAINTS),
        2 => asked.factors.truncate(short(cells)),
        3 => asked.prices.truncate(short(asked.constraints.min(asked.prices.len()))),
        4 => spoil(draw, &mut asked.factors, cells, &WRONG_FACTORS),
        5 => spoil(draw, &mut asked.prices, asked.constraints, &WRONG_PRICES),
        6 => asked.room = short(asked.room),
        7 => asked.period = draw.pick(&WRONG_PERIODS),
        8 => asked.priced_room = short(asked.priced_room),
        _ => asked.book = super::book::out_of_range(draw, own.0, own.1, size.nodes),
    }
}

/// The tables of a grid and its prices, a book's file, and so many cells for each answer.
fn tables_of(draw: &mut Draw, grid: &Grid, list: &[i128], book: &[u8], room: usize) -> Tables {
    let factors = table(draw, &grid.factor_cells(), |factor| factor as i64, i64::MAX);
    let prices = table(draw, list, |price| price as u64, u64::MAX);
    let (nodes, constraints) = (grid.nodes as usize, grid.constraints as usize);
    Tables { nodes, constraints, period: draw.below(2), factors, prices, book: book.to_vec(), room, priced_room: room }
}

fn tables(draw: &mut Draw, size: Size, book: &[u8], room: usize) -> Tables {
    let grid = draw::grid(draw, size);
    let list = draw::prices(draw, size.constraints);
    tables_of(draw, &grid, &list, book, room)
}

pub fn mcc(round: &mut Round) {
    let size = draw::size(&mut round.draw, round.number);
    for room in [size.nodes as usize, size.nodes as usize + 3] {
        let valid = tables(&mut round.draw, size, &[], room);
        mcc_call(round, &valid);
        for _ in 0..10 {
            let mut asked = valid.clone();
            for _ in 0..round.draw.within(1, 3) {
                wrong(&mut round.draw, &mut asked, size, (Form::Narrow, &[]), 7);
            }
            mcc_call(round, &asked);
        }
    }
}

/// An hour drawn for its sets, with too few, just enough and more cells for cents and for sets.
fn priced_hour(round: &mut Round) {
    let Priced { grid, prices, book } = Priced::new(&mut round.draw);
    let count = book.len();
    let form = round.draw.form();
    let valid = tables_of(&mut round.draw, &grid, &prices, &book::file_of(form, &book), count);
    for room in [0, short(count), count, count + 1, count + 4] {
        for priced_room in [0, short(count), count, count + 1, count + 3] {
            let _ = settle_call(round, &Tables { room, priced_room, ..valid.clone() });
        }
    }
    for period in 0..2 {
        round.shown(&cases(&grid, &prices, &of_period(&book, period)));
        let _ = settle_call(round, &Tables { period, ..valid.clone() });
    }
}

pub fn hour(round: &mut Round) {
    let size = draw::size(&mut round.draw, round.number);
    let form = round.draw.form_of(round.number);
    let book = draw::book(&mut round.draw, size, form);
    let file = book::file_of(form, &book);
    round.shown(&forms::book(form, size.nodes, &book));
    let valid = tables(&mut round.draw, size, &file, book.len());
    for period in 0..2 {
        let _ = settle_call(round, &Tables { period, ..valid.clone() });
        let other = tables(&mut round.draw, size, &file, book.len() + 3);
        let _ = settle_call(round, &Tables { period, ..other });
    }
    let narrow = draw::book(&mut round.draw, size, Form::Narrow);
    both_forms(round, &valid, &narrow);
    for _ in 0..25 {
        let mut asked = valid.clone();
        for _ in 0..round.draw.within(1, 3) {
            wrong(&mut round.draw, &mut asked, size, (form, &book), 10);
        }
        let _ = settle_call(round, &asked);
    }
    priced_hour(round);
    let mut files = damaged(&mut round.draw, &valid.book, 16);
    files.extend(super::book::too_many(&mut round.draw));
    let few = if valid.book.len() > 100 { 40 } else { valid.book.len() };
    files.extend(cuts(&valid.book).take(few).map(<[u8]>::to_vec));
    for book in files {
        let _ = settle_call(round, &Tables { book, ..valid.clone() });
    }
}
