//! Every row of the benchmark: an entry on inputs of one size.

use crate::entries::ENTRIES;
use crate::inputs::{Inputs, Size, LARGEST, WIDEST, WIDEST_TEXT, WIDEST_TEXT_AT_8};
use crate::limits::{self, Limit};
use crate::migration::{self, Load};
use crate::plain::Form::{self, Narrow, Wide};
use crate::timing::Times;
use crate::{calendar, exposure, running, shares, views};

/// Where a row's figures come from.
pub enum Figures {
    Timed(Box<dyn Fn() -> Result<Times, String>>),
    Limit(Box<dyn Fn() -> Result<Limit, String>>),
    /// They are those of the entry's row of that group and form.
    Same(&'static str),
}

/// A row of a group, with the count that is told beside the entry's name, where one is.
pub struct Row {
    pub group: &'static str,
    pub form: Form,
    pub entry: &'static str,
    pub by: &'static str,
    pub at: usize,
    pub figures: Figures,
}

const AT_LARGEST: &str = "largest";
const AT_8: &str = "8 constraints";
const GROWTH: &str = "growth";

// `released_percent`, a choice among three figures, is not timed, and neither are `interface` and `refusal_text`.
const ALL: [&str; 31] = [
    "read_grid",
    "write_grid",
    "read_book",
    "write_book",
    "remap_book",
    "write_market_view",
    "write_canonical_book",
    "canonical of split rows",
    "canonical again",
    "add_hub_contract",
    "read_prices",
    "write_prices",
    "test_book",
    "find_flows",
    "add_flows",
    "judge_flows",
    "find_cuts",
    "find_shortfall",
    "find_mcc",
    "find_hub_mcc",
    "settle_hour",
    "write_report",
    "write_statement",
    "find_exposure",
    "write_holder_view",
    "share_balance",
    "net_transfers",
    "migrate_load",
    "open_running",
    "add_award",
    "mark and return",
];

/// Those that take neither nodes nor their numbers.
const WITHOUT_NODES: [&str; 5] = ["read_prices", "write_prices", "judge_flows", "share_balance", "net_transfers"];

/// Those that take no constraints.
const WITHOUT_CONSTRAINTS: [&str; 12] = [
    "read_book",
    "write_book",
    "remap_book",
    "write_market_view",
    "write_canonical_book",
    "canonical of split rows",
    "canonical again",
    "add_hub_contract",
    "write_holder_view",
    "share_balance",
    "net_transfers",
    "migrate_load",
];

const BY_CONTRACTS: [&str; 10] = [
    "read_book",
    "write_book",
    "remap_book",
    "write_market_view",
    "write_canonical_book",
    "test_book",
    "find_cuts",
    "settle_hour",
    "write_report",
    "write_statement",
];
const BY_CONSTRAINTS: [&str; 11] = [
    "read_grid",
    "write_grid",
    "read_prices",
    "write_prices",
    "test_book",
    "add_flows",
    "judge_flows",
    "find_mcc",
    "settle_hour",
    "write_report",
    "write_statement",
];
const BY_NODES: [&str; 8] =
    ["read_grid", "write_grid", "remap_book", "test_book", "find_mcc", "settle_hour", "write_report", "write_statement"];
const BY_WIDE_NODES: [&str; 8] =
    ["read_grid", "write_grid", "read_book", "write_book", "remap_book", "test_book", "find_mcc", "settle_hour"];

fn timed(entry: &'static str, size: Size, form: Form) -> Figures {
    let run: Box<dyn Fn() -> Result<Times, String>> = match entry {
        "find_exposure" => Box::new(move || exposure::find_exposure(size, form, exposure::OVER.min(size.constraints))),
        "write_holder_view" => Box::new(move || views::write_holder_view(size, form, views::MATCHING)),
        "share_balance" => Box::new(|| shares::share_balance(shares::MOST)),
        "net_transfers" => Box::new(|| migration::net_transfers(migration::MOST)),
        "migrate_load" => Box::new(move || migration::migrate_load(Load { nodes: size.nodes, ..migration::MOST }, form)),
        "open_running" => Box::new(move || running::open_running(size)),
        "add_award" => Box::new(move || running::add_award(size)),
        "mark and return" => Box::new(move || running::mark_and_return(size)),
        _ => {
            let run = ENTRIES.iter().find(|own| own.name == entry).expect("an entry of this name").run;
            Box::new(move || run(&Inputs::new(size, form)))
        }
    };
    Figures::Timed(run)
}

/// The largest inputs that an entry takes; the texts take a wide grid of at most 32,768 bytes.
fn largest(group: &'static str, entry: &'static str, form: Form) -> Row {
    let text = form == Wide && ["write_report", "write_statement"].contains(&entry);
    let size = match (form, group) {
        (Wide, AT_8) if text => WIDEST_TEXT_AT_8,
        (Wide, AT_8) => Size { constraints: 8, ..WIDEST },
        (Wide, _) if text => WIDEST_TEXT,
        (Wide, _) => WIDEST,
        (Narrow, AT_8) => Size { constraints: 8, ..LARGEST },
        (Narrow, _) => LARGEST,
    };
    let (by, at) = if text { ("nodes", size.nodes) } else { ("", 0) };
    Row { group, form, entry, by, at, figures: timed(entry, size, form) }
}

/// One count varies; the last is the largest, and 8 constraints have a row already.
fn growth(entries: &[&'static str], form: Form, by: &'static str, counts: &[usize], sized: fn(usize) -> Size) -> Vec<Row> {
    let figures = |entry: &'static str, at: usize| match (by, at) {
        ("constraints", 8) => Figures::Same(AT_8),
        _ if Some(&at) == counts.last() => Figures::Same(AT_LARGEST),
        _ => timed(entry, sized(at), form),
    };
    let row = |entry, at| Row { group: GROWTH, form, entry, by, at, figures: figures(entry, at) };
    entries.iter().flat_map(|&entry| counts.iter().map(move |&at| row(entry, at))).collect()
}

/// One count of an entry varies, by a function of its own; the largest row has `usual` of it.
fn growth_of(entry: &'static str, by: &'static str, counts: &[usize], usual: usize, run: fn(usize) -> Result<Times, String>) -> Vec<Row> {
    let figures = |at| if at == usual { Figures::Same(AT_LARGEST) } else { Figures::Timed(Box::new(move || run(at))) };
    counts.iter().map(|&at| Row { group: GROWTH, form: Narrow, entry, by, at, figures: figures(at) }).collect()
}

fn limit(entry: &'static str, form: Form, run: fn(&Inputs) -> Result<Limit, String>) -> Row {
    let size = if form == Wide { WIDEST } else { LARGEST };
    Row { group: "limit", form, entry, by: "", at: 0, figures: Figures::Limit(Box::new(move || run(&Inputs::new(size, form)))) }
}

fn all_growth() -> Vec<Row> {
    let mut rows = growth(&BY_CONTRACTS, Narrow, "contracts", &[125, 250, 500, 1000], |contracts| Size { contracts, ..LARGEST });
    rows.extend(growth(&BY_CONSTRAINTS, Narrow, "constraints", &[8, 16, 32, 64], |constraints| Size { constraints, ..LARGEST }));
    rows.extend(growth(&BY_NODES, Narrow, "nodes", &[25, 50, 100, 200], |nodes| Size { nodes, ..LARGEST }));
    rows.extend(growth(&BY_WIDE_NODES, Wide, "nodes", &[200, 1000, 4000], |nodes| Size { nodes, ..WIDEST }));
    rows.extend(growth_of("share_balance", "coordinators", &[4, 16, 64, 256], shares::MOST, shares::share_balance));
    rows.extend(growth_of("find_exposure", "overloaded", &[0, 1, 5, 10, 11, 64], exposure::OVER, |over| {
        exposure::find_exposure(LARGEST, Narrow, over)
    }));
    rows.extend(growth_of("write_holder_view", "matching", &[0, 125, 250, 500, 1000], views::MATCHING, |matching| {
        views::write_holder_view(LARGEST, Narrow, matching)
    }));
    let most = migration::MOST;
    rows.extend(growth_of("net_transfers", "rows", &[0, 8, 125, 1000], most.rows, |rows| {
        migration::net_transfers(Load { rows, ..migration::MOST })
    }));
    rows.extend(growth_of("migrate_load", "rows", &[125, 250, 500, 1000], most.rows, |rows| {
        migration::migrate_load(Load { rows, ..migration::MOST }, Narrow)
    }));
    rows.extend(growth_of("migrate_load", "contracts", &[125, 250, 500, 1000], most.contracts, |contracts| {
        migration::migrate_load(Load { contracts, ..migration::MOST }, Narrow)
    }));
    rows
}

pub fn all() -> Vec<Row> {
    let with_nodes = || ALL.into_iter().filter(|entry| !WITHOUT_NODES.contains(entry));
    let with_constraints = |entry: &&str| !WITHOUT_CONSTRAINTS.contains(entry);
    let mut rows: Vec<Row> = ALL.into_iter().map(|entry| largest(AT_LARGEST, entry, Narrow)).collect();
    rows.extend(with_nodes().map(|entry| largest(AT_LARGEST, entry, Wide)));
    rows.extend(ALL.into_iter().filter(with_constraints).map(|entry| largest(AT_8, entry, Narrow)));
    rows.extend(with_nodes().filter(with_constraints).map(|entry| largest(AT_8, entry, Wide)));
    let many = |(entry, run): (&'static str, fn() -> Result<Times, String>)| Row {
        group: "calendar",
        form: Narrow,
        entry,
        by: "calls",
        at: calendar::CALLS,
        figures: Figures::Timed(Box::new(run)),
    };
    rows.extend(calendar::ENTRIES.into_iter().map(many));
    rows.extend(all_growth());
    rows.extend([Narrow, Wide].map(|form| limit("test_book", form, limits::test_book)));
    rows.extend([Narrow, Wide].map(|form| limit("read_grid", form, limits::read_grid)));
    rows.extend([Narrow, Wide].map(|form| limit("read_book", form, limits::read_book)));
    rows.push(limit("read_prices", Narrow, limits::read_prices));
    rows
}
