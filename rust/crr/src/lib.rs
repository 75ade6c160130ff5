//! Congestion revenue rights (CRRs), tested against a grid and settled hour by hour: the safe binding of libcrr.a, whose functions are proved to give what
//! include/crr.h says of them. Units, ranges, files and refusals are described there. The crate needs nothing but the standard library.
//!
//! The functions at this level take slices and give figures and vectors; input that is turned down is a [`Refused`], which has the header's number and sentence.
//! Those of [`lent`] are the C functions with slices for pointers: what is written is lent, and nothing is allocated.
//!
//! ```
//! use crr::{month_hours, Refused};
//!
//! assert_eq!(month_hours(2024, 1), Ok(416));
//! assert_eq!(month_hours(2024, 13), Err(Refused::NO_SUCH_DATE));
//! ```
//!
//! `cargo run --example hour` tests a folder's book and settles its hour. The library is linked from the folder that CRR_LIB_DIR
//! names, else from dist/x86-64-linux of the clone that this crate stands in, else from its target/staticlib, where `./library`
//! leaves it.

#![warn(missing_docs)]

mod books;
mod calendar;
mod exposure;
mod grids;
mod hubs;
mod interface;
#[allow(missing_docs)]
pub mod lent;
mod migration;
mod money;
mod refused;
mod running;
pub mod sizes;
mod terms;
mod texts;
mod totals;

pub use books::{
    count_contracts, find_cuts, find_flows, remap_book, test_book, write_canonical_book, write_holder_view, write_market_view, Book, Cut,
    Flows, Verdict,
};
pub use calendar::{hour_period, month_hours, month_later, weekday};
pub use exposure::{find_exposure, find_shortfall, ExactCents, Exposure, Shortfall};
pub use grids::Grid;
pub use hubs::{add_hub_contract, find_hub_mcc, Hub, HubMcc};
pub use interface::{check_interface, INTERFACE};
pub use migration::{migrate_load, net_transfers, Moved};
pub use money::{find_mcc, read_prices, settle_hour, share_balance, write_prices, Hour};
pub use refused::Refused;
pub use running::Running;
pub use terms::{released_percent, Contract, Form, Kind, Period, Process, Tier};
pub use texts::{write_report, write_statement};
pub use totals::{add_flows, judge_flows, Totals};
