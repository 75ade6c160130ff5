//! Finding net payment, rent and shortfall: books near their limits, at price lists of every kind.

use super::test::{tables, tight, wrong, Tables};
use super::*;
use crate::draw::{self, Size};
use crate::lent::Lent;
use crate::library;
use crate::second::book::{self, Contract};
use crate::second::exposure::{find_shortfall, Cost, HIGHEST_PRICE};
use crate::second::first;
use crate::second::test::{of_period, test};
use crate::tally::Round;

/// What books and price lists show.
pub const CASES: [&str; 13] = [
    "above 0",
    "0 at some price",
    "below 0",
    "a charge as net payment",
    "parts of the rent",
    "rounded down below 0",
    "one cent where it fails",
    "a passing book at the highest prices",
    "an option that is not paid",
    "a price and no contract",
    "a price and no rent",
    "no constraint",
    "another process, another shortfall",
];

const CENT: i128 = 100_000_000;

/// The proved entry's answer, and its figures in the cells lent.
fn answer(asked: &Tables, prices: &[u64], whole: [&mut i64; 3], parts: [&mut u64; 3]) -> u64 {
    let Tables { nodes, constraints, process, period, limits, factors, book } = asked;
    let (nodes, constraints, process, period) = (*nodes, *constraints, *process, *period);
    let ([w0, w1, w2], [p0, p1, p2]) = (whole, parts);
    library::find_shortfall(nodes, constraints, process, period, limits, factors, prices, book, w0, p0, w1, p1, w2, p2)
}

/// One call; gives the second implementation's answer.
fn call(round: &mut Round, asked: &Tables, prices: &[u64]) -> Answer<Cost> {
    let second = find_shortfall(&asked.asked(), prices);
    let mut whole = ["payment_whole", "rent_whole", "shortfall_whole"].map(|name| Lent::<i64>::new(&mut round.draw, name, 1));
    let mut parts = ["payment_parts", "rent_parts", "shortfall_parts"].map(|name| Lent::<u64>::new(&mut round.draw, name, 1));
    let proved = answer(asked, prices, whole.each_mut().map(Lent::figure), parts.each_mut().map(Lent::figure));
    let figures = second.map_or(Vec::new(), |cost| cost.figures().to_vec());
    let figure = |i: usize| figures.get(i..i + 1).unwrap_or_default();
    let differences: Vec<Option<String>> =
        (0..3).flat_map(|i| [whole[i].difference(figure(2 * i)), parts[i].difference(figure(2 * i + 1))]).collect();
    round.compare(proved, second.err().unwrap_or(0), &differences);
    second
}

/// The proved shortfall, in 10^-8 cents.
pub fn proved(asked: &Tables, prices: &[i128]) -> Answer<i128> {
    let (mut whole, mut parts) = ([0; 3], [0; 3]);
    let answer = answer(asked, &cells(prices), whole.each_mut(), parts.each_mut());
    first(&[(answer != 0, answer)])?;
    Ok(i128::from(whole[2]) * CENT + i128::from(parts[2]))
}

/// What a book of which no check refuses anything shows at a list.
fn shown(asked: &Tables, prices: &[i128], book: &[Contract], cost: &Cost) -> Vec<&'static str> {
    let contracts = of_period(book, asked.period);
    let priced = prices.iter().any(|&price| price > 0);
    let passes = test(&asked.asked()) == Ok([0; 4]);
    let highest = priced && prices.iter().all(|&price| price == HIGHEST_PRICE);
    let other = |process: u64| find_shortfall(&Tables { process, ..asked.clone() }.asked(), &cells(prices)).map(|cost| cost.shortfall);
    names(
        &CASES,
        [
            cost.shortfall > 0,
            cost.shortfall == 0 && priced,
            cost.shortfall < 0,
            cost.payment < 0,
            cost.rent % CENT != 0,
            cost.shortfall < 0 && cost.shortfall % CENT != 0,
            false,
            passes && highest,
            priced && cost.payment == 0 && contracts.iter().any(|own| own.kind == 1 && own.source != own.sink),
            contracts.is_empty() && priced,
            cost.rent == 0 && priced,
            prices.is_empty(),
            other((asked.process + 1) % 3) != Ok(cost.shortfall),
        ],
    )
}

fn cells(prices: &[i128]) -> Vec<u64> {
    prices.iter().map(|&price| price as u64).collect()
}

/// The list of one cent where the test says fail: the shortfall there is the excess.
fn one_cent(round: &mut Round, asked: &Tables) {
    if let Ok([set, _, lowest, excess]) = test(&asked.asked()) {
        if set == 0 {
            return;
        }
        let list: Vec<u64> = (0..asked.constraints).map(|k| u64::from(k as i128 == lowest)).collect();
        let cost = call(round, asked, &list);
        round.same(cost.map(|cost| cost.shortfall) == Ok(excess), "one cent and the excess");
        round.shown(&CASES[6..7]);
    }
}

/// No price, the highest everywhere, and lists drawn.
fn lists(draw: &mut Draw, constraints: usize) -> Vec<Vec<i128>> {
    let mut all = vec![vec![0; constraints], vec![HIGHEST_PRICE; constraints]];
    all.extend((0..3).map(|_| draw::prices(draw, constraints as i128)));
    all
}

fn at_lists(round: &mut Round, asked: &Tables, book: &[Contract]) {
    for list in lists(&mut round.draw, asked.constraints) {
        let prices = table(&mut round.draw, &list, |price| price as u64, u64::MAX);
        if let Ok(cost) = call(round, asked, &prices) {
            round.shown(&shown(asked, &list, book, &cost));
        }
    }
    one_cent(round, asked);
}

/// One book in both forms, where its ends fit both: the same answers.
fn both_forms(round: &mut Round, asked: &Tables, prices: &[u64], book: &[Contract]) {
    let [narrow, wide] =
        [Form::Narrow, Form::Wide].map(|form| call(round, &Tables { book: book::file_of(form, book), ..asked.clone() }, prices));
    round.same(narrow == wide, "one book in both forms");
}

/// One thing wrong, of the prices or of what the test takes.
fn wrong_too(draw: &mut Draw, asked: &mut Tables, prices: &mut Vec<u64>, size: Size, form: Form, book: &[Contract]) {
    match draw.below(4) {
        0 => prices.truncate(short(asked.constraints.min(prices.len()))),
        1 => spoil(draw, prices, asked.constraints, &WRONG_PRICES),
        _ => wrong(draw, asked, size, form, book),
    }
}

pub fn round(round: &mut Round) {
    let size = draw::size(&mut round.draw, round.number);
    let form = round.draw.form_of(round.number);
    let mut grid = draw::grid(&mut round.draw, size);
    let book = draw::book(&mut round.draw, size, form);
    let file = book::file_of(form, &book);
    round.shown(&forms::book(form, size.nodes, &book));
    for (process, period) in [(0, 0), (0, 1), (1, 0), (1, 1), (2, 0), (2, 1)] {
        if !round.draw.once_in(3) {
            tight(&mut round.draw, &mut grid, &book, process, period);
        }
        let asked = tables(&mut round.draw, &grid, &file, process, period);
        at_lists(round, &asked, &book);
    }
    let (process, period) = (round.draw.below(3), round.draw.below(2));
    let valid = tables(&mut round.draw, &grid, &file, process, period);
    let list = draw::prices(&mut round.draw, size.constraints);
    let prices = table(&mut round.draw, &list, |price| price as u64, u64::MAX);
    let narrow = draw::book(&mut round.draw, size, Form::Narrow);
    both_forms(round, &valid, &prices, &narrow);
    for _ in 0..25 {
        let (mut asked, mut own) = (valid.clone(), prices.clone());
        for _ in 0..round.draw.within(1, 3) {
            wrong_too(&mut round.draw, &mut asked, &mut own, size, form, &book);
        }
        let _ = call(round, &asked, &own);
    }
    let mut files = damaged(&mut round.draw, &valid.book, 16);
    files.extend(super::book::too_many(&mut round.draw));
    let few = if valid.book.len() > 100 { 40 } else { valid.book.len() };
    files.extend(cuts(&valid.book).take(few).map(<[u8]>::to_vec));
    for book in files {
        let _ = call(round, &Tables { book, ..valid.clone() }, &prices);
    }
}
