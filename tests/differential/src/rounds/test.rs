//! Testing books against grid tables.

use super::*;
use crate::draw::{self, Size};
use crate::lent::Lent;
use crate::library;
use crate::second::book::{self, Contract};
use crate::second::grid::Grid;
use crate::second::test::{flow, of_period, test, Asked};
use crate::tally::Round;

#[derive(Clone)]
pub struct Tables {
    pub nodes: usize,
    pub constraints: usize,
    pub process: u64,
    pub period: u64,
    pub limits: Vec<u64>,
    pub factors: Vec<i64>,
    pub book: Vec<u8>,
}

impl Tables {
    pub fn asked(&self) -> Asked<'_> {
        let Tables { nodes, constraints, process, period, limits, factors, book } = self;
        Asked { nodes: *nodes, constraints: *constraints, process: *process, period: *period, limits, factors, book }
    }
}

/// One call; gives the second implementation's answer.
pub fn call(round: &mut Round, asked: &Tables) -> Answer<[i128; 4]> {
    let Tables { nodes, constraints, process, period, limits, factors, book } = asked;
    let (nodes, constraints, process, period) = (*nodes, *constraints, *process, *period);
    let second = test(&asked.asked());
    let mut set = Lent::<u64>::new(&mut round.draw, "set", 1);
    let mut count = Lent::<usize>::new(&mut round.draw, "count", 1);
    let mut lowest = Lent::<usize>::new(&mut round.draw, "lowest", 1);
    let mut excess = Lent::<i64>::new(&mut round.draw, "excess", 1);
    let lent = (set.figure(), count.figure(), lowest.figure(), excess.figure());
    let proved = library::test_book(nodes, constraints, process, period, limits, factors, book, lent.0, lent.1, lent.2, lent.3);
    let figures: Vec<Vec<i128>> = match &second {
        Ok(figures) => figures.iter().map(|&figure| vec![figure]).collect(),
        Err(_) => vec![Vec::new(); 4],
    };
    let differences =
        [set.difference(&figures[0]), count.difference(&figures[1]), lowest.difference(&figures[2]), excess.difference(&figures[3])];
    round.compare(proved, second.err().unwrap_or(0), &differences);
    second
}

/// One book in both forms, where its ends fit both: the same answers.
fn both_forms(round: &mut Round, asked: &Tables, book: &[Contract]) {
    let [narrow, wide] = [Form::Narrow, Form::Wide].map(|form| call(round, &Tables { book: book::file_of(form, book), ..asked.clone() }));
    round.same(narrow == wide, "one book in both forms");
}

/// Limits at, just below and just above the flows, so that equality and the smallest excess are met.
pub fn tight(draw: &mut Draw, grid: &mut Grid, book: &[Contract], process: u64, period: u64) {
    let share = [65, 60, 100][process as usize] * 1000;
    for k in 0..grid.limits.len() {
        let limit = flow(grid, &of_period(book, period), k) / share + draw.within(-1, 1);
        grid.limits[k] = limit.clamp(0, 100_000_000);
    }
}

/// One thing wrong.
pub fn wrong(draw: &mut Draw, asked: &mut Tables, size: Size, form: Form, book: &[Contract]) {
    let cells = asked.factors.len().min(asked.nodes.saturating_mul(asked.constraints));
    match draw.below(9) {
        0 => asked.nodes = draw.pick(&WRONG_NODES),
        1 => asked.constraints = draw.pick(&WRONG_CONSTRAINTS),
        2 => asked.process = draw.pick(&WRONG_PROCESSES),
        3 => asked.period = draw.pick(&WRONG_PERIODS),
        4 => asked.limits.truncate(short(asked.constraints.min(asked.limits.len()))),
        5 => asked.factors.truncate(short(cells)),
        6 => spoil(draw, &mut asked.limits, asked.constraints, &WRONG_LIMITS),
        7 => spoil(draw, &mut asked.factors, cells, &WRONG_FACTORS),
        _ => asked.book = super::book::out_of_range(draw, form, book, size.nodes),
    }
}

pub fn tables(draw: &mut Draw, grid: &Grid, book: &[u8], process: u64, period: u64) -> Tables {
    let limits = table(draw, &grid.limits, |limit| limit as u64, u64::MAX);
    let factors = table(draw, &grid.factor_cells(), |factor| factor as i64, i64::MIN);
    let (nodes, constraints) = (grid.nodes as usize, grid.constraints as usize);
    Tables { nodes, constraints, process, period, limits, factors, book: book.to_vec() }
}

pub fn round(round: &mut Round) {
    let size = draw::size(&mut round.draw, round.number);
    let form = round.draw.form_of(round.number);
    let mut grid = draw::grid(&mut round.draw, size);
    let book = draw::book(&mut round.draw, size, form);
    let file = book::file_of(form, &book);
    round.shown(&forms::book(form, size.nodes, &book));
    for (process, period) in [(0, 0), (0, 1), (1, 0), (1, 1), (2, 0), (2, 1)] {
        let asked = tables(&mut round.draw, &grid, &file, process, period);
        let _ = call(round, &asked);
        tight(&mut round.draw, &mut grid, &book, process, period);
        let asked = tables(&mut round.draw, &grid, &file, process, period);
        let _ = call(round, &asked);
    }
    let (process, period) = (round.draw.below(3), round.draw.below(2));
    let valid = tables(&mut round.draw, &grid, &file, process, period);
    let narrow = draw::book(&mut round.draw, size, Form::Narrow);
    both_forms(round, &valid, &narrow);
    for _ in 0..20 {
        let mut asked = valid.clone();
        for _ in 0..round.draw.within(1, 3) {
            wrong(&mut round.draw, &mut asked, size, form, &book);
        }
        let _ = call(round, &asked);
    }
    let mut files = damaged(&mut round.draw, &valid.book, 16);
    files.extend(super::book::too_many(&mut round.draw));
    let few = if valid.book.len() > 100 { 40 } else { valid.book.len() };
    files.extend(cuts(&valid.book).take(few).map(<[u8]>::to_vec));
    for book in files {
        let _ = call(round, &Tables { book, ..valid.clone() });
    }
}
