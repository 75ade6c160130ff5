//! The same entries in plain Rust, over the same layouts and with the same checks, written to be fast.

mod bits;
mod book;
mod calendar;
mod canonical;
mod cuts;
mod exposure;
mod grid;
mod hubs;
mod migration;
mod prices;
mod running;
mod settlement;
mod shares;
mod test;
mod text;
mod totals;
mod views;

pub use book::{read_book, remap_book, write_book};
pub use calendar::{hour_period, month_hours, month_later, weekday};
pub use canonical::write_canonical_book;
pub use cuts::find_cuts;
pub use exposure::{find_exposure, find_shortfall, ExactCents};
pub use grid::{read_grid, write_grid, Header};
pub use hubs::{add_hub_contract, find_hub_mcc, Order};
pub use migration::{migrate_load, net_transfers, Lists};
pub use prices::{read_prices, write_prices};
pub use running::{add_award, mark_tier, open_running, return_to_tier, RUNNING_AWARDS, RUNNING_FLOWS, RUNNING_NUMBERS};
pub use settlement::{find_mcc, settle_hour, Totals};
pub use shares::share_balance;
pub use test::{find_flows, test_book, Overload};
pub use text::{write_report, write_statement};
pub use totals::{add_flows, judge_flows};
pub use views::{write_holder_view, write_market_view};

/// A refusal's number ("When input is turned down").
pub type Refusal = u64;

pub const SHORT_FILE: Refusal = 1;
pub const NODE_COUNT: Refusal = 2;
pub const CONSTRAINT_COUNT: Refusal = 3;
pub const SPARE_BITS: Refusal = 4;
pub const FILE_LENGTH: Refusal = 5;
pub const LIMIT_RANGE: Refusal = 6;
pub const FACTOR_RANGE: Refusal = 7;
pub const PADDING: Refusal = 8;
pub const SHORT_TABLE: Refusal = 9;
pub const CONTRACT_COUNT: Refusal = 10;
pub const NODE_NUMBER: Refusal = 11;
pub const QUANTITY_RANGE: Refusal = 13;
pub const PRICE_COUNT: Refusal = 14;
pub const PRICE_RANGE: Refusal = 15;
pub const PROCESS_NUMBER: Refusal = 16;
pub const PERIOD_OR_KIND: Refusal = 17;
pub const HOLDER_RANGE: Refusal = 18;
pub const NO_SUCH_DATE: Refusal = 19;
pub const TIER_MARK: Refusal = 20;
pub const AWARD_OVERLOAD: Refusal = 21;
pub const MIGRATION_RANGE: Refusal = 22;
pub const LOAD_EXCEEDED: Refusal = 23;
pub const HUB_SHAPE: Refusal = 24;
pub const HUB_NODE_TWICE: Refusal = 25;
pub const SHARE_RANGE: Refusal = 26;
pub const NO_DEMAND: Refusal = 27;

pub const MAX_NODES: usize = 4000;
pub const MAX_NARROW_NODES: usize = 200;
pub const MAX_CONSTRAINTS: usize = 64;
pub const MAX_CONTRACTS: usize = 1000;
pub const MAX_COORDINATORS: usize = 256;
pub const MAX_HUB_NODES: usize = 32;
pub const MAX_LSES: usize = 16;
pub const MAX_MIGRATION_ROWS: usize = 1000;

/// The two forms of a grid's file and of a book's.
#[derive(Clone, Copy, Debug, PartialEq, Eq)]
pub enum Form {
    Narrow,
    Wide,
}

/// The refusal unless the condition holds.
fn demand(holds: bool, refusal: Refusal) -> Result<(), Refusal> {
    if holds {
        Ok(())
    } else {
        Err(refusal)
    }
}

fn check_nodes(nodes: usize) -> Result<(), Refusal> {
    demand((1..=MAX_NODES).contains(&nodes), NODE_COUNT)
}

fn check_constraints(constraints: usize) -> Result<(), Refusal> {
    demand(constraints <= MAX_CONSTRAINTS, CONSTRAINT_COUNT)
}

fn check_limits(limits: &[u64]) -> Result<(), Refusal> {
    demand(limits.iter().all(|&limit| limit <= 100_000_000), LIMIT_RANGE)
}

fn check_factors(factors: &[i64]) -> Result<(), Refusal> {
    demand(!factors.iter().any(|&factor| factor_bad(factor)), FACTOR_RANGE)
}

fn check_prices(prices: &[u64]) -> Result<(), Refusal> {
    demand(prices.iter().all(|&price| price <= 500_000), PRICE_RANGE)
}

fn factor_bad(factor: i64) -> bool {
    !(-100_000..=100_000).contains(&factor)
}
