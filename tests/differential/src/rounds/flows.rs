//! Finding the flows, and the released shares.

use super::test::{tables, wrong, Tables};
use super::*;
use crate::draw;
use crate::lent::Lent;
use crate::library;
use crate::second::book::{self, Contract};
use crate::second::flows::{find_flows, released_percent, Flows};
use crate::tally::Round;

/// One call with so many cells for the flows; gives the second implementation's answer.
fn call(round: &mut Round, asked: &Tables, room: usize) -> Answer<Flows> {
    let second = find_flows(&asked.asked(), room);
    let Tables { nodes, constraints, period, limits, factors, book, .. } = asked;
    let mut flows = Lent::<i64>::new(&mut round.draw, "flows", room);
    let mut counted = Lent::<usize>::new(&mut round.draw, "counted", 1);
    let proved = library::find_flows(*nodes, *constraints, *period, limits, factors, book, flows.slice(), counted.figure());
    let (number, cells, figure) = match &second {
        Ok(found) => (0, found.flows.clone(), vec![found.counted]),
        Err(number) => (*number, Vec::new(), Vec::new()),
    };
    round.compare(proved, number, &[flows.difference(&cells), counted.difference(&figure)]);
    second
}

/// One book in both forms, where its ends fit both: the same answers.
fn both_forms(round: &mut Round, asked: &Tables, book: &[Contract]) {
    let [narrow, wide] =
        [Form::Narrow, Form::Wide].map(|form| call(round, &Tables { book: book::file_of(form, book), ..asked.clone() }, asked.constraints));
    round.same(narrow == wide, "one book in both forms");
}

pub fn round(round: &mut Round) {
    let size = draw::size(&mut round.draw, round.number);
    let form = round.draw.form_of(round.number);
    let grid = draw::grid(&mut round.draw, size);
    let book = draw::book(&mut round.draw, size, form);
    let file = book::file_of(form, &book);
    round.shown(&forms::book(form, size.nodes, &book));
    let cells = grid.limits.len();
    for period in 0..2 {
        let asked = tables(&mut round.draw, &grid, &file, 0, period);
        for room in [0, short(cells), cells, cells + 1, cells + 4] {
            let _ = call(round, &asked, room);
        }
    }
    let period = round.draw.below(2);
    let valid = tables(&mut round.draw, &grid, &file, 0, period);
    let narrow = draw::book(&mut round.draw, size, Form::Narrow);
    both_forms(round, &valid, &narrow);
    for _ in 0..20 {
        let mut asked = valid.clone();
        for _ in 0..round.draw.within(1, 3) {
            wrong(&mut round.draw, &mut asked, size, form, &book);
        }
        asked.process = 0;
        let room = if round.draw.once_in(3) { short(cells) } else { cells };
        let _ = call(round, &asked, room);
    }
    let mut files = damaged(&mut round.draw, &valid.book, 16);
    files.extend(super::book::too_many(&mut round.draw));
    let few = if valid.book.len() > 100 { 40 } else { valid.book.len() };
    files.extend(cuts(&valid.book).take(few).map(<[u8]>::to_vec));
    for book in files {
        let _ = call(round, &Tables { book, ..valid.clone() }, cells);
    }
}

/// Each process, the numbers next to them, and others.
pub fn percent(round: &mut Round) {
    let drawn = round.draw.next();
    for process in (0..=5).chain(WRONG_PROCESSES).chain([drawn, drawn % 8]) {
        let mut percent = Lent::<u64>::new(&mut round.draw, "percent", 1);
        let proved = library::released_percent(process, percent.figure());
        let second = released_percent(process);
        let figure: Vec<i128> = second.into_iter().collect();
        round.compare(proved, second.err().unwrap_or(0), &[percent.difference(&figure)]);
    }
}
