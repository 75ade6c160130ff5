//! Compares each public entry of the proved library with a second implementation of the scope document and the change requests: every answer and every
//! lent cell.
//!
//! `differential [SEED [ENTRY [ROUND]]]`: another seed than the usual one; the rounds of one entry; one of them, to see a failure again.
//! `differential vectors`: the conformance vectors alone. `differential short`: fewer calls, for a second build of the library; that each refusal is
//! drawn is not asked for.

mod draw;
mod guarded;
mod lent;
mod library;
mod rounds;
mod second;
mod splitmix;
mod tally;
mod vectors;

use draw::{Draw, EXTREMES};
use rounds::{
    calendar, canonical, cuts, demand, exposure, forms, headers, hub_book, hub_mcc, hubs, migration, priced, refusals, reordering, running,
    shares, shortfall, text, totals, view_pairs, views,
};
use std::env;
use std::process::ExitCode;
use tally::{Entry, Round, Tally};

const SEED: u64 = 20_130_101;
/// Fewer than this for an entry is a failure; so many are aimed at.
const LEAST: u64 = 100_000;
const CALLS: u64 = 300_000;
const FEWER_CALLS: u64 = 3_000;
const CASES: u64 = 20_000;

const BOOK: &[u64] = &[1, 4, 5, 10, 11, 13];
const GRID: &[u64] = &[1, 2, 3, 4, 5, 6, 7, 8];
const PRICES: &[u64] = &[1, 5, 8, 14, 15];

const EXTREME_ROUNDS: u64 = EXTREMES.len() as u64;

/// An entry with no files that it names.
const fn plain(name: &'static str, refusals: &'static [u64], cases: &'static [&'static [&'static str]], round: fn(&mut Round)) -> Entry {
    Entry { name, refusals, files: &[], cases, rounds: EXTREME_ROUNDS, round }
}

/// Each entry, with the refusals that the papers list for it, each to be drawn and no other, and the cases that the change requests name.
const ENTRIES: [Entry; 42] = [
    plain("read_grid", &[1, 2, 3, 4, 5, 6, 7, 8, 9], &[&forms::GRIDS_READ], rounds::grid::read),
    Entry { rounds: headers::FIRST_BYTES, ..plain("grid_headers", &[1, 2, 3, 4, 5, 6, 7, 8, 9], &[], headers::grid) },
    plain("write_grid", &[2, 3, 6, 7, 9], &[&forms::GRIDS_WRITTEN], rounds::grid::write),
    plain("read_book", &[1, 2, 4, 5, 9, 10, 11, 13], &[&forms::BOOKS, &forms::BOOKS_READ], rounds::book::read),
    Entry { rounds: headers::FIRST_BYTES, ..plain("book_headers", &[1, 2, 4, 5, 9, 10, 11, 13], &[], headers::book) },
    plain("write_book", &[2, 9, 10, 11, 13, 17, 18], &[&forms::BOOKS, &forms::BOOKS_WRITTEN], rounds::book::write),
    plain("remap_book", &[1, 2, 4, 5, 9, 10, 11, 13], &[&rounds::remap::CASES], rounds::remap::round),
    plain("write_market_view", &[1, 2, 4, 5, 9, 10, 11, 13], &[&views::MARKET, &view_pairs::MARKET], views::market_round),
    plain("write_holder_view", &[1, 2, 4, 5, 9, 10, 11, 13, 18], &[&views::HOLDER, &view_pairs::HOLDER], views::holder_round),
    Entry {
        rounds: canonical::FIRST_ROUNDS,
        ..plain("write_canonical_book", &[1, 2, 4, 5, 9, 10, 11, 13], &[&canonical::CASES, &forms::BOOKS], canonical::round)
    },
    plain("add_hub_contract", &[1, 2, 4, 5, 9, 10, 11, 13, 17, 18, 24, 25], &[&hub_book::CASES, &hubs::SHAPES], hub_book::round),
    plain("read_prices", &[1, 3, 5, 8, 9, 14, 15], &[], rounds::prices::read),
    plain("write_prices", &[3, 9, 15, 17], &[], rounds::prices::write),
    plain("test_book", &[1, 2, 3, 4, 5, 6, 7, 9, 10, 11, 13, 16, 17], &[&forms::BOOKS], rounds::test::round),
    plain("find_flows", &[1, 2, 3, 4, 5, 6, 7, 9, 10, 11, 13, 17], &[&forms::BOOKS], rounds::flows::round),
    // beyond the papers: a test of any size, its steps and a whole of them
    plain("add_flows", &[1, 2, 3, 4, 5, 6, 7, 9, 10, 11, 13, 17], &[&totals::ADDED, &forms::BOOKS], totals::add),
    plain("judge_flows", &[3, 6, 9, 10, 16], &[&totals::JUDGED], totals::judge),
    Entry { rounds: totals::slices::FIRST_ROUNDS, ..plain("sliced_test", &[], &[&totals::slices::CASES], totals::slices::round) },
    Entry {
        rounds: cuts::FIRST_ROUNDS,
        ..plain("find_cuts", &[1, 2, 3, 4, 5, 6, 7, 9, 10, 11, 13, 16, 17], &[&cuts::CASES, &forms::BOOKS], cuts::round)
    },
    // beyond the papers: what a book costs at any prices, and at worst
    plain("find_shortfall", &[1, 2, 3, 4, 5, 6, 7, 9, 10, 11, 13, 15, 16, 17], &[&shortfall::CASES, &forms::BOOKS], shortfall::round),
    Entry {
        rounds: exposure::FIRST_ROUNDS,
        ..plain("find_exposure", &[1, 2, 3, 4, 5, 6, 7, 9, 10, 11, 13, 16, 17], &[&exposure::CASES, &forms::BOOKS], exposure::round)
    },
    plain("released_percent", &[16], &[], rounds::flows::percent),
    plain("open_running", &[2, 3, 6, 7, 9, 16, 17], &[], running::faults::open),
    plain("add_award", &[2, 3, 6, 7, 9, 10, 11, 13, 16, 17, 18, 21], &[&running::altered::CASES], running::faults::add),
    plain("mark_tier", &[9, 20], &[], running::altered::mark),
    plain("return_to_tier", &[9, 20], &[], running::altered::return_to),
    plain("running_test", &[10, 11, 13, 17, 18, 20, 21], &[&running::CASES], running::round),
    plain("find_mcc", &[2, 3, 7, 9, 15], &[], rounds::settlement::mcc),
    Entry {
        rounds: hub_mcc::FIRST_ROUNDS,
        ..plain("find_hub_mcc", &[2, 3, 7, 9, 11, 15, 24, 25], &[&hub_mcc::CASES, &hubs::SHAPES], hub_mcc::round)
    },
    plain("settle_hour", &[1, 2, 3, 4, 5, 7, 9, 10, 11, 13, 15, 17], &[&priced::CASES, &forms::BOOKS], rounds::settlement::hour),
    Entry { rounds: shares::ROUNDS, ..plain("share_balance", &[9, 26, 27], &[&shares::CASES], shares::round) },
    // paper 14's laws, over test_book, find_flows and settle_hour
    plain("reordering", &[6, 10, 11, 13], &[&reordering::CASES], reordering::round),
    plain("running_orders", &[21], &[&running::orders::CASES], running::orders::round),
    plain("net_transfers", &[9, 22], &[&migration::nets::CASES], migration::nets::round),
    plain("migrate_load", &[1, 2, 4, 5, 9, 10, 11, 13, 17, 22, 23], &[&migration::CASES], migration::round),
    Entry { files: &[("grid", GRID), ("book", BOOK)], ..plain("write_report", &[9], &[&text::CASES], text::report) },
    Entry {
        files: &[("grid", GRID), ("book", BOOK), ("prices", PRICES)],
        ..plain("write_statement", &[9], &[&priced::CASES, &text::CASES], text::statement)
    },
    // beyond the papers: what a refusal's number means
    Entry { rounds: refusals::FIRST_ROUNDS, ..plain("refusal_text", &[9], &[&refusals::CASES], refusals::round) },
    Entry { rounds: calendar::YEARS, ..plain("month_hours", &[19], &[&calendar::HOURS], calendar::hours) },
    // beyond the papers: an hour's period by the rule
    Entry { rounds: calendar::MONTHS, ..plain("hour_period", &[19], &[&calendar::PERIODS], calendar::periods) },
    Entry { rounds: calendar::MONTHS, ..plain("weekday", &[19], &[&calendar::WEEKDAYS], calendar::weekdays) },
    Entry { rounds: calendar::MONTHS, ..plain("month_later", &[19], &[&calendar::LATER], calendar::later) },
];

/// The rounds of an entry: those that it must have, and then so many that there are enough calls.
fn run(entry: &Entry, seed: u64, calls: u64) -> Tally {
    let mut tally = Tally::default();
    let mut number = 0;
    while tally.calls < calls || (number < entry.rounds && calls == CALLS) {
        (entry.round)(&mut Round::new(entry.name, seed, number, &mut tally));
        number += 1;
    }
    tally
}

/// Prints an entry's line; whether something is wrong beside a failed comparison.
fn report(entry: &Entry, tally: &Tally) -> bool {
    tally.print(entry);
    let missing = tally.missing(entry);
    if !missing.is_empty() {
        println!("{:<18} | never drawn: {}", entry.name, missing.join(", "));
    }
    let unlisted = tally.unlisted(entry);
    if !unlisted.is_empty() {
        println!("{:<18} | answered and not listed: {}", entry.name, unlisted.join(", "));
    }
    !missing.is_empty() || !unlisted.is_empty() || tally.calls < LEAST
}

fn demand_3(seed: u64) -> u64 {
    let mut draw = Draw::new(seed);
    let mut counts = demand::Counts::default();
    for _ in 0..CASES {
        demand::case(&mut draw, &mut counts);
    }
    let demand::Counts { passing, failing, lists, wrong } = counts;
    println!("demand 3: {passing} books pass and {failing} fail, {lists} price lists, {wrong} books wrong");
    wrong + u64::from(passing == 0 || failing == 0)
}

/// The library of another machine: fewer calls of each entry.
fn short(seed: u64) -> ExitCode {
    let (mut calls, mut failed) = (0, 0);
    for entry in &ENTRIES {
        let tally = run(entry, seed, FEWER_CALLS);
        calls += tally.calls;
        failed += tally.failed + tally.unlisted(entry).len() as u64;
    }
    println!("{calls} calls of {} entries, {failed} differ", ENTRIES.len());
    ExitCode::from(u8::from(failed > 0))
}

fn all(seed: u64) -> ExitCode {
    println!("seed {seed}\n{:<18} | {:>7} | {:>6} | answers (0: none refused), and how often", "entry", "calls", "failed");
    let (mut calls, mut failed, mut lacking) = (0, 0, false);
    for entry in &ENTRIES {
        let tally = run(entry, seed, CALLS);
        lacking |= report(entry, &tally);
        calls += tally.calls;
        failed += tally.failed;
    }
    let wrong = demand_3(seed) + (second::own::check() + vectors::check()) as u64;
    println!("{} passed, {failed} failed", calls - failed);
    if failed == 0 && !lacking && wrong == 0 {
        ExitCode::SUCCESS
    } else {
        ExitCode::FAILURE
    }
}

/// The rounds of one entry, or one of them.
fn one(seed: u64, name: &str, number: Option<u64>) -> ExitCode {
    let Some(entry) = ENTRIES.iter().find(|entry| entry.name == name) else {
        eprintln!("differential: no entry {name}");
        return ExitCode::from(2);
    };
    let Some(number) = number else {
        let tally = run(entry, seed, CALLS);
        return ExitCode::from(u8::from(report(entry, &tally) || tally.failed > 0));
    };
    let mut tally = Tally::default();
    (entry.round)(&mut Round::new(entry.name, seed, number, &mut tally));
    tally.print(entry);
    ExitCode::from(u8::from(tally.failed > 0))
}

fn main() -> ExitCode {
    crr::check_interface();
    let words: Vec<String> = env::args().skip(1).collect();
    let number = |i: usize, usual: u64| words.get(i).map_or(usual, |word| word.parse().expect("a number"));
    if words == ["vectors"] {
        return ExitCode::from(u8::from(vectors::check() > 0));
    }
    if words == ["short"] {
        return short(SEED);
    }
    match words.len() {
        0 | 1 => all(number(0, SEED)),
        2 => one(number(0, SEED), &words[1], None),
        3 => one(number(0, SEED), &words[1], Some(number(2, 0))),
        _ => {
            eprintln!("usage: differential [SEED [ENTRY [ROUND]] | vectors | short]");
            ExitCode::from(2)
        }
    }
}
