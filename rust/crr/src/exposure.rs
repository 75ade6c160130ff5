//! What a book costs at any prices, and at worst.

use crate::grids::Grid;
use crate::lent;
use crate::refused::{answered, Refused};
use crate::terms::{Period, Process};

/// An exact figure of one hour: whole + parts / 100,000,000 cents.
#[derive(Clone, Copy, Debug, Default, PartialEq, Eq, PartialOrd, Ord)]
pub struct ExactCents {
    /// Whole cents, rounded down.
    pub whole: i64,
    /// What it has beyond them, in 10^-8 cents.
    pub parts: u64,
}

/// What a book costs at a price list.
#[derive(Clone, Copy, Debug, Default, PartialEq, Eq)]
pub struct Shortfall {
    /// Net payment of the period's contracts, charges negative.
    pub payment: ExactCents,
    /// Congestion rent: released limits times prices.
    pub rent: ExactCents,
    /// Net payment less rent.
    pub shortfall: ExactCents,
}

/// Finds net payment, rent and shortfall of a period's contracts, of a book's file, in a process, at a price for each constraint.
pub fn find_shortfall(grid: &Grid, process: Process, period: Period, prices: &[u64], book: &[u8]) -> Result<Shortfall, Refused> {
    let Grid { nodes, constraints, limits, factors, .. } = grid;
    let Shortfall { payment: mut p, rent: mut r, shortfall: mut s } = Shortfall::default();
    answered(|| {
        let (process, period) = (process as u64, period as u64);
        let [payment, rent, shortfall] = [&mut p, &mut r, &mut s].map(|own| (&mut own.whole, &mut own.parts));
        lent::find_shortfall(
            *nodes,
            *constraints,
            process,
            period,
            limits,
            factors,
            prices,
            book,
            payment.0,
            payment.1,
            rent.0,
            rent.1,
            shortfall.0,
            shortfall.1,
        )
    })?;
    Ok(Shortfall { payment: p, rent: r, shortfall: s })
}

/// What a book can cost an hour at worst.
#[derive(Clone, Debug, PartialEq, Eq)]
pub struct Exposure {
    /// The worst shortfall is at least this: that of the prices. Both bounds are 0 exactly where the test passes.
    pub least: ExactCents,
    /// And at most this. The two are equal where at most ten constraints are overloaded.
    pub most: ExactCents,
    /// The prices that cost the least, one for each constraint, in cents per MWh.
    pub prices: Vec<u64>,
}

/// Finds how far the net payment of a period's contracts, of a book's file, can exceed the congestion rent of a process, and prices that
/// make it so.
pub fn find_exposure(grid: &Grid, process: Process, period: Period, book: &[u8]) -> Result<Exposure, Refused> {
    let Grid { nodes, constraints, limits, factors, .. } = grid;
    let (mut least, mut most, mut prices) = (ExactCents::default(), ExactCents::default(), vec![0; *constraints]);
    answered(|| {
        let (process, period) = (process as u64, period as u64);
        let [low, high] = [&mut least, &mut most].map(|own| (&mut own.whole, &mut own.parts));
        lent::find_exposure(*nodes, *constraints, process, period, limits, factors, book, &mut prices, low.0, low.1, high.0, high.1)
    })?;
    Ok(Exposure { least, most, prices })
}
