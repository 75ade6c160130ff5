//! Each public entry on given inputs, proved and plain: first compared, then timed.

use crate::exposure::find_shortfall;
use crate::inputs::{Inputs, Size, BOOK_BYTES, GRID_BYTES};
use crate::library;
use crate::plain::{self, Form, Header, Order, Overload, Totals, MAX_CONTRACTS, MAX_HUB_NODES};
use crate::timing::{side_by_side, Times};
use crate::totals::{add_flows, judge_flows};
use std::hint::black_box;

/// An entry, and what it does on given inputs.
pub struct Entry {
    pub name: &'static str,
    pub run: fn(&Inputs) -> Result<Times, String>,
}

pub const ENTRIES: [Entry; 23] = [
    Entry { name: "read_grid", run: read_grid },
    Entry { name: "write_grid", run: write_grid },
    Entry { name: "read_book", run: read_book },
    Entry { name: "write_book", run: write_book },
    Entry { name: "remap_book", run: remap_book },
    Entry { name: "write_market_view", run: write_market_view },
    Entry { name: "write_canonical_book", run: write_canonical_book },
    Entry { name: "canonical of split rows", run: canonical_of_split },
    Entry { name: "canonical again", run: canonical_again },
    Entry { name: "add_hub_contract", run: add_hub_contract },
    Entry { name: "read_prices", run: read_prices },
    Entry { name: "write_prices", run: write_prices },
    Entry { name: "test_book", run: test_book },
    Entry { name: "find_flows", run: find_flows },
    Entry { name: "add_flows", run: add_flows },
    Entry { name: "judge_flows", run: judge_flows },
    Entry { name: "find_cuts", run: find_cuts },
    Entry { name: "find_shortfall", run: find_shortfall },
    Entry { name: "find_mcc", run: find_mcc },
    Entry { name: "find_hub_mcc", run: find_hub_mcc },
    Entry { name: "settle_hour", run: settle_hour },
    Entry { name: "write_report", run: write_report },
    Entry { name: "write_statement", run: write_statement },
];

pub fn agree<T: PartialEq>(proved: &T, plain: &T) -> Result<(), String> {
    if proved == plain {
        Ok(())
    } else {
        Err("the proved and the plain answer differ".to_string())
    }
}

/// The form as the proved library has it.
fn number(form: Form) -> u64 {
    match form {
        Form::Narrow => 0,
        Form::Wide => 1,
    }
}

fn read_grid(inputs: &Inputs) -> Result<Times, String> {
    let file = &inputs.grid_file;
    let (mut limits, mut factors) = (vec![0; inputs.limits.len()], vec![0; inputs.factors.len()]);
    let (mut nodes, mut constraints, mut form) = (0, 0, 7);
    let proved = library::read_grid(file, &mut limits, &mut factors, &mut nodes, &mut constraints, &mut form);
    let (mut plain_limits, mut plain_factors) = (vec![0; limits.len()], vec![0; factors.len()]);
    let plain = plain::read_grid(file, &mut plain_limits, &mut plain_factors);
    let Size { nodes: own_nodes, constraints: own_constraints, .. } = inputs.size;
    agree(&(proved, nodes, constraints, form), &(0, own_nodes, own_constraints, number(inputs.form)))?;
    agree(&Ok(Header { form: inputs.form, nodes, constraints }), &plain)?;
    agree(&(&limits, &factors), &(&plain_limits, &plain_factors))?;
    agree(&(&limits, &factors), &(&inputs.limits, &inputs.factors))?;
    Ok(side_by_side(
        &mut || {
            black_box(library::read_grid(black_box(file), &mut limits, &mut factors, &mut nodes, &mut constraints, &mut form));
        },
        &mut || {
            let _ = black_box(plain::read_grid(black_box(file), &mut plain_limits, &mut plain_factors));
        },
    ))
}

fn write_grid(inputs: &Inputs) -> Result<Times, String> {
    let Size { nodes, constraints, .. } = inputs.size;
    let (form, told) = (inputs.form, number(inputs.form));
    let (limits, factors) = (&inputs.limits, &inputs.factors);
    let (mut file, mut plain_file, mut bytes) = (vec![0; GRID_BYTES], vec![0; GRID_BYTES], 0);
    let proved = library::write_grid(told, nodes, constraints, limits, factors, &mut file, &mut bytes);
    let plain = plain::write_grid(form, nodes, constraints, limits, factors, &mut plain_file);
    agree(&(proved, Ok(bytes)), &(0, plain))?;
    agree(&file, &plain_file)?;
    Ok(side_by_side(
        &mut || {
            black_box(library::write_grid(told, nodes, constraints, black_box(limits), factors, &mut file, &mut bytes));
        },
        &mut || {
            let _ = black_box(plain::write_grid(form, nodes, constraints, black_box(limits), factors, &mut plain_file));
        },
    ))
}

fn read_book(inputs: &Inputs) -> Result<Times, String> {
    let (nodes, file) = (inputs.size.nodes, &inputs.book_file);
    let (mut book, mut plain_book) = (vec![0; inputs.book.len()], vec![0; inputs.book.len()]);
    let (mut contracts, mut form) = (0, 7);
    let proved = library::read_book(nodes, file, &mut book, &mut contracts, &mut form);
    let plain = plain::read_book(nodes, file, &mut plain_book);
    agree(&(proved, Ok((contracts, inputs.form)), form), &(0, plain, number(inputs.form)))?;
    agree(&(&book, &book), &(&plain_book, &inputs.book))?;
    Ok(side_by_side(
        &mut || {
            black_box(library::read_book(nodes, black_box(file), &mut book, &mut contracts, &mut form));
        },
        &mut || {
            let _ = black_box(plain::read_book(nodes, black_box(file), &mut plain_book));
        },
    ))
}

fn write_book(inputs: &Inputs) -> Result<Times, String> {
    let Size { nodes, contracts, .. } = inputs.size;
    let (form, told) = (inputs.form, number(inputs.form));
    let book = &inputs.book;
    let (mut file, mut plain_file, mut bytes) = (vec![0; BOOK_BYTES], vec![0; BOOK_BYTES], 0);
    let proved = library::write_book(told, nodes, contracts, book, &mut file, &mut bytes);
    let plain = plain::write_book(form, nodes, contracts, book, &mut plain_file);
    agree(&(proved, Ok(bytes)), &(0, plain))?;
    agree(&file, &plain_file)?;
    Ok(side_by_side(
        &mut || {
            black_box(library::write_book(told, nodes, contracts, black_box(book), &mut file, &mut bytes));
        },
        &mut || {
            let _ = black_box(plain::write_book(form, nodes, contracts, black_box(book), &mut plain_file));
        },
    ))
}

fn remap_book(inputs: &Inputs) -> Result<Times, String> {
    let (nodes, book, old, new) = (inputs.size.nodes, &inputs.book_file, &inputs.old, &inputs.new);
    let (mut file, mut plain_file, mut bytes) = (vec![0; BOOK_BYTES], vec![0; BOOK_BYTES], 0);
    let proved = library::remap_book(nodes, book, old, new, &mut file, &mut bytes);
    let plain = plain::remap_book(nodes, book, old, new, &mut plain_file);
    agree(&(proved, Ok(bytes)), &(0, plain))?;
    agree(&file, &plain_file)?;
    Ok(side_by_side(
        &mut || {
            black_box(library::remap_book(nodes, black_box(book), old, new, &mut file, &mut bytes));
        },
        &mut || {
            let _ = black_box(plain::remap_book(nodes, black_box(book), old, new, &mut plain_file));
        },
    ))
}

fn write_market_view(inputs: &Inputs) -> Result<Times, String> {
    let (nodes, book) = (inputs.size.nodes, &inputs.book_file);
    let (mut file, mut plain_file, mut bytes) = (vec![0; BOOK_BYTES], vec![0; BOOK_BYTES], 0);
    let proved = library::write_market_view(nodes, book, &mut file, &mut bytes);
    let plain = plain::write_market_view(nodes, book, &mut plain_file);
    agree(&(proved, Ok(bytes)), &(0, plain))?;
    agree(&file, &plain_file)?;
    Ok(side_by_side(
        &mut || {
            black_box(library::write_market_view(nodes, black_box(book), &mut file, &mut bytes));
        },
        &mut || {
            let _ = black_box(plain::write_market_view(nodes, black_box(book), &mut plain_file));
        },
    ))
}

fn canonical(nodes: usize, book: &[u8]) -> Result<Times, String> {
    let (mut file, mut plain_file, mut bytes) = (vec![0; BOOK_BYTES], vec![0; BOOK_BYTES], 0);
    let proved = library::write_canonical_book(nodes, book, &mut file, &mut bytes);
    let plain = plain::write_canonical_book(nodes, book, &mut plain_file);
    agree(&(proved, Ok(bytes)), &(0, plain))?;
    agree(&file, &plain_file)?;
    Ok(side_by_side(
        &mut || {
            black_box(library::write_canonical_book(nodes, black_box(book), &mut file, &mut bytes));
        },
        &mut || {
            let _ = black_box(plain::write_canonical_book(nodes, black_box(book), &mut plain_file));
        },
    ))
}

fn write_canonical_book(inputs: &Inputs) -> Result<Times, String> {
    canonical(inputs.size.nodes, &inputs.book_file)
}

/// The same entry on a book of split rows, four for each contract.
fn canonical_of_split(inputs: &Inputs) -> Result<Times, String> {
    canonical(inputs.size.nodes, &inputs.split_book())
}

/// The same entry on what it gave.
fn canonical_again(inputs: &Inputs) -> Result<Times, String> {
    let (nodes, mut file) = (inputs.size.nodes, vec![0; BOOK_BYTES]);
    let length = plain::write_canonical_book(nodes, &inputs.book_file, &mut file).map_err(|number| format!("refused {number}"))?;
    canonical(nodes, &file[..length])
}

/// As many contracts as leave room for all that is added.
fn add_hub_contract(inputs: &Inputs) -> Result<Times, String> {
    let Size { nodes, contracts, .. } = inputs.size;
    let (hub_nodes, weights) = (&inputs.hub_nodes, &inputs.hub_weights);
    let mut book = vec![0; BOOK_BYTES];
    let rows = contracts.min(MAX_CONTRACTS - MAX_HUB_NODES);
    let length = plain::write_book(inputs.form, nodes, rows, &inputs.book, &mut book).expect("a book in range");
    book.truncate(length);
    let (mut file, mut plain_file, mut bytes) = (vec![0; BOOK_BYTES], vec![0; BOOK_BYTES], 0);
    let mut order = Order { kind: 1, period: 0, holder: 1_023, sink: nodes as u64 - 1, quantity: 0 };
    for quantity in [1, 31, 32, 1_000, 999_999, 1_000_000, 123_457] {
        order.quantity = quantity;
        let Order { kind, period, holder, sink, .. } = order;
        let proved =
            library::add_hub_contract(nodes, &book, kind, period, holder, hub_nodes, weights, sink, quantity, &mut file, &mut bytes);
        let plain = plain::add_hub_contract(nodes, &book, order, hub_nodes, weights, &mut plain_file);
        agree(&(proved, Ok(bytes)), &(0, plain))?;
        agree(&file, &plain_file)?;
    }
    let Order { kind, period, holder, sink, quantity } = order;
    Ok(side_by_side(
        &mut || {
            let book = black_box(&book);
            black_box(library::add_hub_contract(
                nodes, book, kind, period, holder, hub_nodes, weights, sink, quantity, &mut file, &mut bytes,
            ));
        },
        &mut || {
            let _ = black_box(plain::add_hub_contract(nodes, black_box(&book), order, hub_nodes, weights, &mut plain_file));
        },
    ))
}

fn read_prices(inputs: &Inputs) -> Result<Times, String> {
    let (constraints, file) = (inputs.size.constraints, &inputs.price_file);
    let (mut prices, mut plain_prices, mut period) = (vec![0; constraints], vec![0; constraints], 0);
    let proved = library::read_prices(constraints, file, &mut prices, &mut period);
    let plain = plain::read_prices(constraints, file, &mut plain_prices);
    agree(&(proved, Ok(period)), &(0, plain))?;
    agree(&(&prices, &prices), &(&plain_prices, &inputs.prices))?;
    Ok(side_by_side(
        &mut || {
            black_box(library::read_prices(constraints, black_box(file), &mut prices, &mut period));
        },
        &mut || {
            let _ = black_box(plain::read_prices(constraints, black_box(file), &mut plain_prices));
        },
    ))
}

fn write_prices(inputs: &Inputs) -> Result<Times, String> {
    let (constraints, prices) = (inputs.size.constraints, &inputs.prices);
    let (mut file, mut plain_file, mut bytes) = (vec![0; 153], vec![0; 153], 0);
    let proved = library::write_prices(1, constraints, prices, &mut file, &mut bytes);
    let plain = plain::write_prices(1, constraints, prices, &mut plain_file);
    agree(&(proved, Ok(bytes)), &(0, plain))?;
    agree(&file, &plain_file)?;
    Ok(side_by_side(
        &mut || {
            black_box(library::write_prices(1, constraints, black_box(prices), &mut file, &mut bytes));
        },
        &mut || {
            let _ = black_box(plain::write_prices(1, constraints, black_box(prices), &mut plain_file));
        },
    ))
}

fn test_book(inputs: &Inputs) -> Result<Times, String> {
    let Size { nodes, constraints, .. } = inputs.size;
    let (limits, factors, book) = (&inputs.limits, &inputs.factors, &inputs.book_file);
    let Overload { mut set, mut count, mut lowest, mut excess } = Overload::default();
    for (process, period) in [(0, 0), (0, 1), (1, 0), (1, 1), (2, 0), (2, 1)] {
        let proved =
            library::test_book(nodes, constraints, process, period, limits, factors, book, &mut set, &mut count, &mut lowest, &mut excess);
        let plain = plain::test_book(nodes, constraints, process, period, limits, factors, book);
        agree(&(proved, Ok(Overload { set, count, lowest, excess })), &(0, plain))?;
    }
    Ok(side_by_side(
        &mut || {
            black_box(library::test_book(
                nodes,
                constraints,
                0,
                1,
                limits,
                black_box(factors),
                book,
                &mut set,
                &mut count,
                &mut lowest,
                &mut excess,
            ));
        },
        &mut || {
            let _ = black_box(plain::test_book(nodes, constraints, 0, 1, limits, black_box(factors), book));
        },
    ))
}

fn find_flows(inputs: &Inputs) -> Result<Times, String> {
    let Size { nodes, constraints, .. } = inputs.size;
    let (limits, factors, book) = (&inputs.limits, &inputs.factors, &inputs.book_file);
    let (mut flows, mut plain_flows, mut counted) = (vec![0; constraints], vec![0; constraints], 0);
    for period in [0, 1] {
        let proved = library::find_flows(nodes, constraints, period, limits, factors, book, &mut flows, &mut counted);
        let plain = plain::find_flows(nodes, constraints, period, limits, factors, book, &mut plain_flows);
        agree(&(proved, Ok(counted)), &(0, plain))?;
        agree(&flows, &plain_flows)?;
    }
    Ok(side_by_side(
        &mut || {
            black_box(library::find_flows(nodes, constraints, 1, limits, black_box(factors), book, &mut flows, &mut counted));
        },
        &mut || {
            let _ = black_box(plain::find_flows(nodes, constraints, 1, limits, black_box(factors), book, &mut plain_flows));
        },
    ))
}

/// On a book that fails at one constraint: about half of the period's contracts have a cut.
fn find_cuts(inputs: &Inputs) -> Result<Times, String> {
    let Size { nodes, constraints, contracts } = inputs.size;
    let (limits, factors, book) = (&inputs.tight_limits()?, &inputs.factors, &inputs.book_file);
    let (mut numbers, mut cuts, mut listed) = (vec![0; contracts], vec![0; contracts], 0);
    let (mut plain_numbers, mut plain_cuts) = (vec![0; contracts], vec![0; contracts]);
    for (process, period) in [(0, 0), (0, 1), (1, 0), (1, 1), (2, 0), (2, 1)] {
        let proved = library::find_cuts(nodes, constraints, process, period, limits, factors, book, &mut numbers, &mut cuts, &mut listed);
        let plain = plain::find_cuts(nodes, constraints, process, period, limits, factors, book, &mut plain_numbers, &mut plain_cuts);
        agree(&(proved, Ok(listed)), &(0, plain))?;
        agree(&(&numbers, &cuts), &(&plain_numbers, &plain_cuts))?;
    }
    if listed < contracts / 8 {
        return Err(format!("only {listed} contracts have a cut"));
    }
    Ok(side_by_side(
        &mut || {
            let lent = (&mut numbers, &mut cuts, &mut listed);
            black_box(library::find_cuts(nodes, constraints, 2, 1, limits, black_box(factors), book, lent.0, lent.1, lent.2));
        },
        &mut || {
            let lent = (&mut plain_numbers, &mut plain_cuts);
            let _ = black_box(plain::find_cuts(nodes, constraints, 2, 1, limits, black_box(factors), book, lent.0, lent.1));
        },
    ))
}

fn find_mcc(inputs: &Inputs) -> Result<Times, String> {
    let Size { nodes, constraints, .. } = inputs.size;
    let (factors, prices) = (&inputs.factors, &inputs.prices);
    let (mut mcc, mut plain_mcc) = (vec![0; nodes], vec![0; nodes]);
    let proved = library::find_mcc(nodes, constraints, factors, prices, &mut mcc);
    let plain = plain::find_mcc(nodes, constraints, factors, prices, &mut plain_mcc);
    agree(&(proved, Ok(())), &(0, plain))?;
    agree(&mcc, &plain_mcc)?;
    Ok(side_by_side(
        &mut || {
            black_box(library::find_mcc(nodes, constraints, black_box(factors), prices, &mut mcc));
        },
        &mut || {
            let _ = black_box(plain::find_mcc(nodes, constraints, black_box(factors), prices, &mut plain_mcc));
        },
    ))
}

fn find_hub_mcc(inputs: &Inputs) -> Result<Times, String> {
    let Size { nodes, constraints, .. } = inputs.size;
    let (factors, prices, hub_nodes, weights) = (&inputs.factors, &inputs.prices, &inputs.hub_nodes, &inputs.hub_weights);
    let (mut quotient, mut remainder) = (0, 0);
    let proved = library::find_hub_mcc(nodes, constraints, factors, prices, hub_nodes, weights, &mut quotient, &mut remainder);
    let plain = plain::find_hub_mcc(nodes, constraints, factors, prices, hub_nodes, weights);
    agree(&(proved, Ok((quotient, remainder))), &(0, plain))?;
    Ok(side_by_side(
        &mut || {
            let factors = black_box(factors);
            black_box(library::find_hub_mcc(nodes, constraints, factors, prices, hub_nodes, weights, &mut quotient, &mut remainder));
        },
        &mut || {
            let _ = black_box(plain::find_hub_mcc(nodes, constraints, black_box(factors), prices, hub_nodes, weights));
        },
    ))
}

fn settle_hour(inputs: &Inputs) -> Result<Times, String> {
    let Size { nodes, constraints, contracts } = inputs.size;
    let (factors, prices, book) = (&inputs.factors, &inputs.prices, &inputs.book_file);
    let (mut cents, mut plain_cents) = (vec![0; contracts], vec![0; contracts]);
    let (mut priced, mut plain_priced) = (vec![0; contracts], vec![0; contracts]);
    let Totals { mut sum, mut whole, mut parts } = Totals::default();
    let proved =
        library::settle_hour(nodes, constraints, 1, factors, prices, book, &mut cents, &mut priced, &mut sum, &mut whole, &mut parts);
    let plain = plain::settle_hour(nodes, constraints, 1, factors, prices, book, &mut plain_cents, &mut plain_priced);
    agree(&(proved, Ok(Totals { sum, whole, parts })), &(0, plain))?;
    agree(&(&cents, &priced), &(&plain_cents, &plain_priced))?;
    Ok(side_by_side(
        &mut || {
            black_box(library::settle_hour(
                nodes,
                constraints,
                1,
                black_box(factors),
                prices,
                book,
                &mut cents,
                &mut priced,
                &mut sum,
                &mut whole,
                &mut parts,
            ));
        },
        &mut || {
            let cells = (&mut plain_cents, &mut plain_priced);
            let _ = black_box(plain::settle_hour(nodes, constraints, 1, black_box(factors), prices, book, cells.0, cells.1));
        },
    ))
}

fn write_report(inputs: &Inputs) -> Result<Times, String> {
    let (grid, book) = (&inputs.grid_file, &inputs.book_file);
    let (mut text, mut plain_text, mut bytes) = (vec![0; 2048], vec![0; 2048], 0);
    let proved = library::write_report(grid, book, &mut text, &mut bytes);
    let plain = plain::write_report(grid, book, &mut plain_text);
    agree(&(proved, Ok(bytes)), &(0, plain))?;
    agree(&text, &plain_text)?;
    Ok(side_by_side(
        &mut || {
            black_box(library::write_report(black_box(grid), book, &mut text, &mut bytes));
        },
        &mut || {
            let _ = black_box(plain::write_report(black_box(grid), book, &mut plain_text));
        },
    ))
}

fn write_statement(inputs: &Inputs) -> Result<Times, String> {
    let (grid, book, prices) = (&inputs.grid_file, &inputs.book_file, &inputs.price_file);
    let (mut text, mut plain_text, mut bytes) = (vec![0; 29_085], vec![0; 29_085], 0);
    let proved = library::write_statement(grid, book, prices, &mut text, &mut bytes);
    let plain = plain::write_statement(grid, book, prices, &mut plain_text);
    agree(&(proved, Ok(bytes)), &(0, plain))?;
    agree(&text, &plain_text)?;
    Ok(side_by_side(
        &mut || {
            black_box(library::write_statement(black_box(grid), book, prices, &mut text, &mut bytes));
        },
        &mut || {
            let _ = black_box(plain::write_statement(black_box(grid), book, prices, &mut plain_text));
        },
    ))
}
