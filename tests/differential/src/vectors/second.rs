//! The same calls, asked of the second implementation.

use super::Slot;
use crate::library::{Migration, Opening, State};
use crate::second::book::Contract;
use crate::second::cuts::{placed, Row, Tested};
use crate::second::exposure::Exposed;
use crate::second::hubs::Hub;
use crate::second::running::{add_by_cells, mark_by_cells, return_by_cells, Running};
use crate::second::{
    book, calendar, canonical, exposure, flows, grid, hubs, migration, prices, refusals, remap, set_of, settlement, shares, test, text,
    totals, views, Answer, Form,
};
use std::collections::HashMap;

/// What a call writes: by name the first cells, or all of a running test's.
pub type Written = Vec<(&'static str, Vec<i128>)>;

/// What a line hands over, by name.
pub struct Given<'a>(pub &'a [Slot<'a>]);

impl Given<'_> {
    fn cells(&self, name: &str) -> &[i128] {
        &self.0.iter().find(|slot| slot.parameter.name == name).expect("a parameter of crr.h").before
    }

    fn number(&self, name: &str) -> u64 {
        self.cells(name)[0] as u64
    }

    fn count(&self, name: &str) -> usize {
        self.cells(name)[0] as usize
    }

    fn bytes(&self, name: &str) -> Vec<u8> {
        self.cells(name).iter().map(|&cell| cell as u8).collect()
    }

    fn list(&self, name: &str) -> Vec<u64> {
        self.cells(name).iter().map(|&cell| cell as u64).collect()
    }

    fn signed(&self, name: &str) -> Vec<i64> {
        self.cells(name).iter().map(|&cell| cell as i64).collect()
    }

    fn room(&self, name: &str) -> usize {
        self.cells(name).len()
    }
}

fn file(name: &'static str, written: Vec<u8>) -> Written {
    vec![("bytes", vec![written.len() as i128]), (name, written.into_iter().map(i128::from).collect())]
}

fn one(name: &'static str, figure: i128) -> (&'static str, Vec<i128>) {
    (name, vec![figure])
}

/// The running tests that lines go on with, by name.
pub type Runs = HashMap<String, Running>;

fn running(function: &str, given: &Given, run: Option<&str>, runs: &mut Runs) -> Answer<Written> {
    let has = |name: &str| given.0.iter().any(|slot| slot.parameter.name == name);
    let mut awards = if has("awards") { given.list("awards") } else { Vec::new() };
    let (mut numbers, mut flows) = (given.list("numbers"), given.signed("flows"));
    let mut state = State { awards: &mut awards, numbers: &mut numbers, flows: &mut flows };
    let (limits, factors) = if has("limits") { (given.list("limits"), given.signed("factors")) } else { Default::default() };
    let number = |name: &str| if has(name) { given.number(name) } else { 0 };
    let (process, period) = (number("process"), number("period"));
    let opening = Opening {
        nodes: number("nodes") as usize,
        constraints: number("constraints") as usize,
        process,
        period,
        limits: &limits,
        factors: &factors,
    };
    let held = run.and_then(|name| runs.get_mut(name));
    match (function, held) {
        ("open_running", _) => {
            let opened = Running::open(&opening, &mut state)?;
            runs.extend(run.map(|name| (name.to_string(), opened)));
        }
        ("add_award", Some(held)) => held.add(&opening, &given.list("award"), &mut state)?,
        ("add_award", None) => add_by_cells(&opening, &given.list("award"), &mut state)?,
        ("mark_tier", Some(held)) => held.mark(given.number("tier"), &mut state)?,
        ("mark_tier", None) => mark_by_cells(given.number("tier"), &mut state)?,
        (_, Some(held)) => held.return_to(given.number("tier"), &mut state)?,
        (_, None) => return_by_cells(given.number("tier"), &mut state)?,
    }
    let mut written =
        vec![("numbers", numbers.into_iter().map(i128::from).collect()), ("flows", flows.into_iter().map(i128::from).collect())];
    if function == "add_award" {
        written.push(("awards", awards.into_iter().map(i128::from).collect()));
    }
    Ok(written)
}

/// The tables of a test, with a process where the function takes one.
fn tested<T>(g: &Given, process: u64, ask: impl FnOnce(&test::Asked) -> T) -> T {
    let (limits, factors, book) = (g.list("limits"), g.signed("factors"), g.bytes("book"));
    let (nodes, constraints, period) = (g.count("nodes"), g.count("constraints"), g.number("period"));
    ask(&test::Asked { nodes, constraints, process, period, limits: &limits, factors: &factors, book: &book })
}

/// The tables of an hour.
fn priced<T>(g: &Given, period: u64, book: &[u8], ask: impl FnOnce(&settlement::Asked) -> T) -> T {
    let (factors, prices) = (g.signed("factors"), g.list("prices"));
    ask(&settlement::Asked {
        nodes: g.count("nodes"),
        constraints: g.count("constraints"),
        period,
        factors: &factors,
        prices: &prices,
        book,
    })
}

fn read_grid(g: &Given) -> Answer<Written> {
    let (form, grid) = grid::read(&g.bytes("file"), g.room("limits"), g.room("factors"))?;
    let counts = [one("nodes", grid.nodes), one("constraints", grid.constraints), one("form", form.number())];
    Ok([&[("limits", grid.limits.clone()), ("factors", grid.factor_cells())][..], &counts].concat())
}

fn write_grid(g: &Given) -> Answer<Written> {
    let (limits, factors) = (g.list("limits"), g.signed("factors"));
    Ok(file(
        "file",
        grid::write(Form::told(g.number("form")), g.count("nodes"), g.count("constraints"), &limits, &factors, g.room("file"))?,
    ))
}

fn read_book(g: &Given) -> Answer<Written> {
    let (form, book) = book::read(g.count("nodes"), &g.bytes("file"), g.room("book"))?;
    let cells = book.iter().flat_map(Contract::row).collect();
    Ok(vec![("book", cells), one("contracts", book.len() as i128), one("form", form.number())])
}

fn write_book(g: &Given) -> Answer<Written> {
    let form = Form::told(g.number("form"));
    Ok(file("file", book::write(form, g.count("nodes"), g.count("contracts"), &g.list("book"), g.room("file"))?))
}

fn remap_book(g: &Given) -> Answer<Written> {
    Ok(file("file", remap::remap(g.count("nodes"), &g.bytes("book"), &g.list("old_nodes"), &g.list("new_nodes"), g.room("file"))?))
}

fn write_market_view(g: &Given) -> Answer<Written> {
    Ok(file("file", views::market(g.count("nodes"), &g.bytes("book"), g.room("file"))?))
}

fn write_holder_view(g: &Given) -> Answer<Written> {
    Ok(file("view", views::holder(g.count("nodes"), &g.bytes("book"), g.number("holder"), g.room("view"))?))
}

fn write_canonical_book(g: &Given) -> Answer<Written> {
    Ok(file("file", canonical::canonical_file(g.count("nodes"), &g.bytes("book"), g.room("file"))?))
}

fn add_hub_contract(g: &Given) -> Answer<Written> {
    let (book, hub_nodes, hub_weights) = (g.bytes("book"), g.list("hub_nodes"), g.list("hub_weights"));
    let hub = Hub { nodes: &hub_nodes, weights: &hub_weights };
    let [kind, period, holder, sink, quantity] = ["kind", "period", "holder", "sink", "quantity"].map(|name| g.number(name));
    let asked = hubs::Asked { nodes: g.count("nodes"), book: &book, kind, period, holder, hub, sink, quantity };
    Ok(file("file", hubs::add(&asked, g.room("file"))?))
}

fn read_prices(g: &Given) -> Answer<Written> {
    let (period, prices) = prices::read(g.count("constraints"), &g.bytes("file"), g.room("prices"))?;
    Ok(vec![("prices", prices), one("period", period)])
}

fn write_prices(g: &Given) -> Answer<Written> {
    Ok(file("file", prices::write(g.number("period"), g.count("constraints"), &g.list("prices"), g.room("file"))?))
}

fn test_book(g: &Given) -> Answer<Written> {
    let [set, count, lowest, excess] = tested(g, g.number("process"), test::test)?;
    Ok(vec![one("set", set), one("count", count), one("lowest", lowest), one("excess", excess)])
}

fn find_flows(g: &Given) -> Answer<Written> {
    let found = tested(g, 0, |asked| flows::find_flows(asked, g.room("flows")))?;
    Ok(vec![("flows", found.flows), one("counted", found.counted)])
}

fn add_flows(g: &Given) -> Answer<Written> {
    let added = tested(g, 0, |asked| totals::add_flows(asked, &g.signed("flows"), g.count("count")))?;
    Ok(vec![("flows", added.flows), one("count", added.count), one("counted", added.counted)])
}

fn judge_flows(g: &Given) -> Answer<Written> {
    let (limits, flows) = (g.list("limits"), g.signed("flows"));
    let (constraints, process, summed) = (g.count("constraints"), g.number("process"), g.count("summed"));
    let [set, count, lowest, excess] =
        totals::judge_flows(&totals::Block { constraints, process, limits: &limits, flows: &flows, summed })?;
    Ok(vec![one("set", set), one("count", count), one("lowest", lowest), one("excess", excess)])
}

fn find_cuts(g: &Given) -> Answer<Written> {
    let found = tested(g, g.number("process"), Tested::new).map(|tested| tested.by_halving());
    let rows: Vec<Row> = placed(&found, g.room("numbers"), g.room("cuts"))?;
    let (numbers, cuts) = rows.iter().map(|row| (row.number, row.cut)).unzip();
    Ok(vec![("numbers", numbers), ("cuts", cuts), one("listed", rows.len() as i128)])
}

fn find_shortfall(g: &Given) -> Answer<Written> {
    let prices = g.list("prices");
    let cost = tested(g, g.number("process"), |asked| exposure::find_shortfall(asked, &prices))?;
    let names = ["payment_whole", "payment_parts", "rent_whole", "rent_parts", "shortfall_whole", "shortfall_parts"];
    Ok(names.into_iter().zip(cost.figures()).map(|(name, figure)| one(name, figure)).collect())
}

fn find_exposure(g: &Given) -> Answer<Written> {
    let found = tested(g, g.number("process"), Exposed::new).map(|exposed| exposed.exposure());
    let found = exposure::placed(&found, g.room("prices"))?;
    let names = ["least_whole", "least_parts", "most_whole", "most_parts"];
    let figures = names.into_iter().zip(found.figures()).map(|(name, figure)| one(name, figure));
    Ok(figures.chain([("prices", found.prices)]).collect())
}

fn released_percent(g: &Given) -> Answer<Written> {
    Ok(vec![one("percent", flows::released_percent(g.number("process"))?)])
}

fn find_mcc(g: &Given) -> Answer<Written> {
    Ok(vec![("mcc", priced(g, 0, &[], |asked| settlement::find_mcc(asked, g.room("mcc")))?)])
}

fn find_hub_mcc(g: &Given) -> Answer<Written> {
    let (hub_nodes, hub_weights) = (g.list("hub_nodes"), g.list("hub_weights"));
    let hub = Hub { nodes: &hub_nodes, weights: &hub_weights };
    let (quotient, remainder) = priced(g, 0, &[], |asked| hubs::find_hub_mcc(asked, hub))?;
    Ok(vec![one("quotient", quotient), one("remainder", remainder)])
}

fn settle_hour(g: &Given) -> Answer<Written> {
    let hour = priced(g, g.number("period"), &g.bytes("book"), |asked| settlement::settle(asked, g.room("cents"), g.room("priced")))?;
    let sets = hour.priced.iter().map(|own| set_of(own)).collect();
    Ok(vec![("cents", hour.cents), ("priced", sets), one("sum", hour.sum), one("whole", hour.whole), one("parts", hour.parts)])
}

fn share_balance(g: &Given) -> Answer<Written> {
    Ok(vec![("shares", shares::share(g.cells("balance")[0] as i64, &g.list("demands"), g.room("shares"))?)])
}

fn moved(g: &Given, loads: Vec<u64>) -> Migration {
    let [customers, rates, olds, news] = ["customers", "rates", "olds", "news"].map(|name| g.list(name));
    Migration { classes: g.bytes("classes"), customers, rates, olds, news, loads }
}

fn migrate_load(g: &Given) -> Answer<Written> {
    let lists = moved(g, g.list("loads"));
    Ok(file("file", migration::migrate(g.count("nodes"), g.number("period"), &g.bytes("book"), &lists, g.room("file"))?))
}

fn net_transfers(g: &Given) -> Answer<Written> {
    Ok(vec![("nets", migration::net_transfers(g.count("lses"), &moved(g, Vec::new()), g.room("nets"))?)])
}

fn write_report(g: &Given) -> Answer<Written> {
    Ok(file("text", text::report(&g.bytes("grid_file"), &g.bytes("book_file"), g.room("text"))?.text.into_bytes()))
}

fn write_statement(g: &Given) -> Answer<Written> {
    let page = text::statement(&g.bytes("grid_file"), &g.bytes("book_file"), &g.bytes("price_file"), g.room("text"))?;
    Ok(file("text", page.text.into_bytes()))
}

fn month_hours(g: &Given) -> Answer<Written> {
    Ok(vec![one("hours", calendar::month_hours(g.number("year"), g.number("month"))?)])
}

fn hour_period(g: &Given) -> Answer<Written> {
    let date = (g.number("year"), g.number("month"), g.number("day"));
    Ok(vec![one("period", calendar::hour_period(date, g.number("hour_ending"))?)])
}

fn weekday(g: &Given) -> Answer<Written> {
    Ok(vec![one("weekday", calendar::weekday((g.number("year"), g.number("month"), g.number("day")))?)])
}

fn month_later(g: &Given) -> Answer<Written> {
    let (year, month, day) = calendar::month_later((g.number("year"), g.number("month"), g.number("day")))?;
    Ok(vec![one("later_year", year.into()), one("later_month", month.into()), one("later_day", day.into())])
}

/// What the second implementation gives for a call, and of a running test the state that it goes on with.
pub fn answered(function: &str, slots: &[Slot], run: Option<&str>, runs: &mut Runs) -> Answer<Written> {
    let g = Given(slots);
    match function {
        "read_grid" => read_grid(&g),
        "write_grid" => write_grid(&g),
        "read_book" => read_book(&g),
        "write_book" => write_book(&g),
        "remap_book" => remap_book(&g),
        "write_market_view" => write_market_view(&g),
        "write_holder_view" => write_holder_view(&g),
        "write_canonical_book" => write_canonical_book(&g),
        "add_hub_contract" => add_hub_contract(&g),
        "read_prices" => read_prices(&g),
        "write_prices" => write_prices(&g),
        "test_book" => test_book(&g),
        "find_flows" => find_flows(&g),
        "add_flows" => add_flows(&g),
        "judge_flows" => judge_flows(&g),
        "find_cuts" => find_cuts(&g),
        "find_shortfall" => find_shortfall(&g),
        "find_exposure" => find_exposure(&g),
        "released_percent" => released_percent(&g),
        "open_running" | "add_award" | "mark_tier" | "return_to_tier" => running(function, &g, run, runs),
        "find_mcc" => find_mcc(&g),
        "find_hub_mcc" => find_hub_mcc(&g),
        "settle_hour" => settle_hour(&g),
        "share_balance" => share_balance(&g),
        "migrate_load" => migrate_load(&g),
        "net_transfers" => net_transfers(&g),
        "refusal_text" => Ok(file("text", refusals::text(g.number("number"), g.room("text"))?)),
        // Its answer is its figure and no refusal.
        "interface" => Err(refusals::interface()),
        "write_report" => write_report(&g),
        "write_statement" => write_statement(&g),
        "month_hours" => month_hours(&g),
        "hour_period" => hour_period(&g),
        "weekday" => weekday(&g),
        "month_later" => month_later(&g),
        _ => panic!("the second implementation has no {function}"),
    }
}
