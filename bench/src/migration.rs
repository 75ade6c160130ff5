//! Migrating load, proved and plain: first compared, then timed.

use crate::entries::agree;
use crate::inputs::BOOK_BYTES;
use crate::library::{self, Migration};
use crate::plain::{self, Form, Lists};
use crate::splitmix::Draw;
use crate::timing::{side_by_side, Times};
use std::hint::black_box;

/// How much is migrated: nodes of the grid, rows, LSEs, and the contracts that the book grows to.
#[derive(Clone, Copy)]
pub struct Load {
    pub nodes: usize,
    pub rows: usize,
    pub lses: usize,
    pub contracts: usize,
}

/// Rows, a list for each column, and loads.
#[derive(Default)]
struct Rows {
    classes: Vec<u8>,
    customers: Vec<u64>,
    rates: Vec<u64>,
    olds: Vec<u64>,
    news: Vec<u64>,
    loads: Vec<u64>,
}

/// The largest; a wide grid has more nodes.
pub const MOST: Load = Load { nodes: 200, rows: 1000, lses: 16, contracts: 1000 };

/// Rows drawn at random, and for each LSE a load of ten times the most that it can lose.
fn lists(draw: &mut Draw, load: Load) -> Rows {
    let lses = load.lses as u64;
    let mut lists = Rows { loads: vec![10; load.lses], ..Rows::default() };
    for _ in 0..load.rows {
        let (customers, rate, old) = (draw.below(1001), draw.below(10_001), draw.below(lses));
        lists.classes.push(draw.below(256) as u8);
        lists.customers.push(customers);
        lists.rates.push(rate);
        lists.olds.push(1 + old);
        lists.news.push(1 + (old + 1 + draw.below(lses - 1)) % lses);
        lists.loads[old as usize] += 10 * customers * rate;
    }
    lists
}

/// Contracts of the LSEs, of both kinds and periods, as long as the book can grow by them, and options up to the length that it must have.
fn book(draw: &mut Draw, load: Load, form: Form, lists: &Rows) -> Result<Vec<u8>, String> {
    let nodes = load.nodes as u64;
    let contract = |draw: &mut Draw, kind: u64| {
        let (source, sink) = (draw.below(nodes), draw.below(nodes));
        [kind, draw.below(2), 1 + draw.below(load.lses as u64), source, sink, 1 + draw.below(1_000_000)]
    };
    let mut rows: Vec<u64> = Vec::new();
    let (mut file, mut grown) = (vec![0; BOOK_BYTES], vec![0; BOOK_BYTES]);
    let per_contract = if form == Form::Narrow { 6 } else { 7 };
    let mut full = false;
    loop {
        let kind = if full { 1 } else { draw.below(2) };
        rows.extend(contract(draw, kind));
        let written = plain::write_book(form, load.nodes, rows.len() / 6, &rows, &mut file).map_err(|why| format!("refused {why}"))?;
        let size = plain::migrate_load(load.nodes, 1, &file[..written], &lists_of(lists), &mut grown).unwrap_or(usize::MAX);
        if size > 2 + per_contract * load.contracts {
            rows.truncate(rows.len() - 6);
            full = true;
        } else if size == 2 + per_contract * load.contracts {
            return Ok(file[..written].to_vec());
        }
    }
}

fn lists_of(lists: &Rows) -> Lists<'_> {
    let Rows { classes, customers, rates, olds, news, loads } = lists;
    Lists { classes, customers, rates, olds, news, loads }
}

fn lent(lists: &Rows) -> Migration<'_> {
    let Rows { classes, customers, rates, olds, news, loads } = lists;
    Migration { classes, customers, rates, olds, news, loads }
}

pub fn migrate_load(load: Load, form: Form) -> Result<Times, String> {
    let mut draw = Draw::new(2013);
    let lists = lists(&mut draw, load);
    let book = book(&mut draw, load, form, &lists)?;
    let (mut file, mut plain_file, mut bytes) = (vec![0; BOOK_BYTES], vec![0; BOOK_BYTES], 0);
    for period in [0, 1] {
        let proved = library::migrate_load(load.nodes, period, &book, &lent(&lists), &mut file, &mut bytes);
        let plain = plain::migrate_load(load.nodes, period, &book, &lists_of(&lists), &mut plain_file);
        agree(&(proved, bytes), &plain.map_or_else(|refusal| (refusal, bytes), |size| (0, size)))?;
        agree(&file, &plain_file)?;
    }
    Ok(side_by_side(
        &mut || {
            black_box(library::migrate_load(load.nodes, 1, black_box(&book), &lent(&lists), &mut file, &mut bytes));
        },
        &mut || {
            let _ = black_box(plain::migrate_load(load.nodes, 1, black_box(&book), &lists_of(&lists), &mut plain_file));
        },
    ))
}

/// The square of the same rows.
pub fn net_transfers(load: Load) -> Result<Times, String> {
    let lists = lists(&mut Draw::new(2013), load);
    let mut nets = vec![7; load.lses * load.lses + 1];
    let mut plain_nets = nets.clone();
    let proved = library::net_transfers(load.lses, &lent(&lists), &mut nets);
    let plain = plain::net_transfers(load.lses, &lists_of(&lists), &mut plain_nets);
    agree(&proved, &plain.err().unwrap_or(0))?;
    agree(&nets, &plain_nets)?;
    Ok(side_by_side(
        &mut || {
            black_box(library::net_transfers(load.lses, &lent(black_box(&lists)), &mut nets));
            black_box(&nets);
        },
        &mut || {
            let _ = black_box(plain::net_transfers(load.lses, &lists_of(black_box(&lists)), &mut plain_nets));
            black_box(&plain_nets);
        },
    ))
}
