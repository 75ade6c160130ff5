//! The proved library's functions, each called as include/crr.h allows it and no further: what is passed stands at a page that
//! can't be touched, and the stack is of the promised size (guarded.rs). Each gives the refusal's number, 0 for none.

use crate::guarded::{called, Place, Places};
pub use crr::lent::{Opening, State};
use crr::sizes::{STACK_BYTES as STACK, TEXT_STACK_BYTES as TEXT_STACK};

macro_rules! guarded {
    ($($stack:ident: fn $name:ident($($given:ident: $type:ty),*);)*) => {$(
        #[allow(clippy::too_many_arguments)]
        pub fn $name($($given: $type),*) -> u64 {
            called(stringify!($name), |places| {
                $(let mut $given = $given.place(places);)*
                places.on_stack($stack, || crr::lent::$name($($given.lent()),*))
            })
        }
    )*};
}

guarded! {
    STACK: fn refusal_text(number: u64, text: &mut [u8], bytes: &mut usize);
    STACK: fn read_grid(file: &[u8], limits: &mut [u64], factors: &mut [i64], nodes: &mut usize, constraints: &mut usize, form: &mut u64);
    STACK: fn write_grid(form: u64, nodes: usize, constraints: usize, limits: &[u64], factors: &[i64], file: &mut [u8], bytes: &mut usize);
    STACK: fn read_book(nodes: usize, file: &[u8], book: &mut [u64], contracts: &mut usize, form: &mut u64);
    STACK: fn write_book(form: u64, nodes: usize, contracts: usize, book: &[u64], file: &mut [u8], bytes: &mut usize);
    STACK: fn remap_book(nodes: usize, book: &[u8], old: &[u64], new: &[u64], file: &mut [u8], bytes: &mut usize);
    STACK: fn write_market_view(nodes: usize, book: &[u8], file: &mut [u8], bytes: &mut usize);
    STACK: fn write_holder_view(nodes: usize, book: &[u8], holder: u64, view: &mut [u8], bytes: &mut usize);
    STACK: fn write_canonical_book(nodes: usize, book: &[u8], file: &mut [u8], bytes: &mut usize);
    STACK: fn add_hub_contract(
        nodes: usize, book: &[u8], kind: u64, period: u64, holder: u64, hub_nodes: &[u64], hub_weights: &[u64], sink: u64, quantity: u64,
        file: &mut [u8], bytes: &mut usize
    );
    STACK: fn read_prices(constraints: usize, file: &[u8], prices: &mut [u64], period: &mut u64);
    STACK: fn write_prices(period: u64, constraints: usize, prices: &[u64], file: &mut [u8], bytes: &mut usize);
    STACK: fn test_book(
        nodes: usize, constraints: usize, process: u64, period: u64, limits: &[u64], factors: &[i64], book: &[u8],
        set: &mut u64, count: &mut usize, lowest: &mut usize, excess: &mut i64
    );
    STACK: fn find_flows(
        nodes: usize, constraints: usize, period: u64, limits: &[u64], factors: &[i64], book: &[u8], flows: &mut [i64], counted: &mut usize
    );
    STACK: fn add_flows(
        nodes: usize, constraints: usize, period: u64, limits: &[u64], factors: &[i64], book: &[u8],
        flows: &mut [i64], count: &mut usize, counted: &mut usize
    );
    STACK: fn judge_flows(
        constraints: usize, process: u64, limits: &[u64], flows: &[i64], summed: usize,
        set: &mut u64, count: &mut usize, lowest: &mut usize, excess: &mut i64
    );
    STACK: fn find_cuts(
        nodes: usize, constraints: usize, process: u64, period: u64, limits: &[u64], factors: &[i64], book: &[u8],
        numbers: &mut [u64], cuts: &mut [u64], listed: &mut usize
    );
    TEXT_STACK: fn find_shortfall(
        nodes: usize, constraints: usize, process: u64, period: u64, limits: &[u64], factors: &[i64], prices: &[u64], book: &[u8],
        payment_whole: &mut i64, payment_parts: &mut u64, rent_whole: &mut i64, rent_parts: &mut u64,
        shortfall_whole: &mut i64, shortfall_parts: &mut u64
    );
    TEXT_STACK: fn find_exposure(
        nodes: usize, constraints: usize, process: u64, period: u64, limits: &[u64], factors: &[i64], book: &[u8],
        prices: &mut [u64], least_whole: &mut i64, least_parts: &mut u64, most_whole: &mut i64, most_parts: &mut u64
    );
    STACK: fn released_percent(process: u64, percent: &mut u64);
    STACK: fn find_mcc(nodes: usize, constraints: usize, factors: &[i64], prices: &[u64], mcc: &mut [i64]);
    STACK: fn find_hub_mcc(
        nodes: usize, constraints: usize, factors: &[i64], prices: &[u64], hub_nodes: &[u64], hub_weights: &[u64],
        quotient: &mut i64, remainder: &mut u64
    );
    STACK: fn settle_hour(
        nodes: usize, constraints: usize, period: u64, factors: &[i64], prices: &[u64], book: &[u8], cents: &mut [i64], priced: &mut [u64],
        sum: &mut i64, whole: &mut i64, parts: &mut u64
    );
    STACK: fn share_balance(balance: i64, demands: &[u64], shares: &mut [i64]);
    TEXT_STACK: fn write_report(grid_file: &[u8], book_file: &[u8], text: &mut [u8], bytes: &mut usize);
    TEXT_STACK: fn write_statement(grid_file: &[u8], book_file: &[u8], price_file: &[u8], text: &mut [u8], bytes: &mut usize);
    STACK: fn month_hours(year: u64, month: u64, hours: &mut u64);
    STACK: fn hour_period(year: u64, month: u64, day: u64, hour_ending: u64, period: &mut u64);
    STACK: fn weekday(year: u64, month: u64, day: u64, weekday: &mut u64);
    STACK: fn month_later(year: u64, month: u64, day: u64, later_year: &mut u64, later_month: &mut u64, later_day: &mut u64);
}

/// The lists of rows and the loads that load migration takes.
#[derive(Clone, Default)]
pub struct Migration {
    pub classes: Vec<u8>,
    pub customers: Vec<u64>,
    pub rates: Vec<u64>,
    pub olds: Vec<u64>,
    pub news: Vec<u64>,
    pub loads: Vec<u64>,
}

pub fn migrate_load(nodes: usize, period: u64, book: &[u8], lists: &Migration, file: &mut [u8], bytes: &mut usize) -> u64 {
    called("migrate_load", |places| {
        let (mut book, mut classes, mut file, mut bytes) =
            (book.place(places), lists.classes[..].place(places), file.place(places), bytes.place(places));
        let (mut customers, mut rates) = (lists.customers[..].place(places), lists.rates[..].place(places));
        let (mut olds, mut news, mut loads) = (lists.olds[..].place(places), lists.news[..].place(places), lists.loads[..].place(places));
        let lists = crr::lent::Migration {
            classes: classes.lent(),
            customers: customers.lent(),
            rates: rates.lent(),
            olds: olds.lent(),
            news: news.lent(),
            loads: loads.lent(),
        };
        places.on_stack(STACK, || crr::lent::migrate_load(nodes, period, book.lent(), &lists, file.lent(), bytes.lent()))
    })
}

/// The lists' loads are not looked at.
pub fn net_transfers(lses: usize, lists: &Migration, nets: &mut [i64]) -> u64 {
    called("net_transfers", |places| {
        let (mut classes, mut nets) = (lists.classes[..].place(places), nets.place(places));
        let (mut customers, mut rates) = (lists.customers[..].place(places), lists.rates[..].place(places));
        let (mut olds, mut news) = (lists.olds[..].place(places), lists.news[..].place(places));
        let lists = crr::lent::Migration {
            classes: classes.lent(),
            customers: customers.lent(),
            rates: rates.lent(),
            olds: olds.lent(),
            news: news.lent(),
            loads: &[],
        };
        places.on_stack(STACK, || crr::lent::net_transfers(lses, &lists, nets.lent()))
    })
}

/// A function of the running test, with its tables, its award and its state placed.
fn running(name: &'static str, opening: &Opening, award: &[u64], state: &mut State, call: fn(&Opening, &[u64], &mut State) -> u64) -> u64 {
    called(name, |places| {
        let (mut limits, mut factors, mut award) = (opening.limits.place(places), opening.factors.place(places), award.place(places));
        let opening = Opening { limits: limits.lent(), factors: factors.lent(), ..*opening };
        on_state(places, state, |state| call(&opening, award.lent(), state))
    })
}

fn on_state(places: &Places, state: &mut State, call: impl FnOnce(&mut State) -> u64) -> u64 {
    let State { awards, numbers, flows } = state;
    let (mut awards, mut numbers, mut flows) =
        ((&mut **awards).place(places), (&mut **numbers).place(places), (&mut **flows).place(places));
    let mut state = State { awards: awards.lent(), numbers: numbers.lent(), flows: flows.lent() };
    places.on_stack(STACK, || call(&mut state))
}

pub fn open_running(opening: &Opening, state: &mut State) -> u64 {
    running("open_running", opening, &[], state, |opening, _, state| crr::lent::open_running(opening, state))
}

pub fn add_award(opening: &Opening, award: &[u64], state: &mut State) -> u64 {
    running("add_award", opening, award, state, crr::lent::add_award)
}

pub fn mark_tier(tier: u64, state: &mut State) -> u64 {
    called("mark_tier", |places| on_state(places, state, |state| crr::lent::mark_tier(tier, state)))
}

pub fn return_to_tier(tier: u64, state: &mut State) -> u64 {
    called("return_to_tier", |places| on_state(places, state, |state| crr::lent::return_to_tier(tier, state)))
}
