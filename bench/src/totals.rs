//! The steps of a test of any size, on totals of 1,000,000 contracts.

use crate::entries::agree;
use crate::inputs::{Inputs, Size};
use crate::library;
use crate::plain::{self, Overload};
use crate::timing::{side_by_side, Times};
use std::hint::black_box;

const COUNT: usize = 1_000_000;

/// Totals that so many contracts can make, of either sign.
fn totals(constraints: usize) -> Vec<i64> {
    (0..constraints as i64).map(|k| (k - 32) * 1_000_000_000_000).collect()
}

pub fn add_flows(inputs: &Inputs) -> Result<Times, String> {
    let Size { nodes, constraints, .. } = inputs.size;
    let (limits, factors, book) = (&inputs.limits, &inputs.factors, &inputs.book_file);
    let begun = totals(constraints);
    let (mut flows, mut count, mut counted) = (begun.clone(), COUNT, 0);
    let (mut plain_flows, mut plain_count) = (begun.clone(), COUNT);
    for period in [0, 1] {
        let proved = library::add_flows(nodes, constraints, period, limits, factors, book, &mut flows, &mut count, &mut counted);
        let plain = plain::add_flows(nodes, constraints, period, limits, factors, book, &mut plain_flows, &mut plain_count);
        agree(&(proved, Ok(counted)), &(0, plain))?;
        agree(&(&flows, count), &(&plain_flows, plain_count))?;
    }
    Ok(side_by_side(
        &mut || {
            flows.copy_from_slice(&begun);
            count = COUNT;
            let factors = black_box(factors);
            black_box(library::add_flows(nodes, constraints, 1, limits, factors, book, &mut flows, &mut count, &mut counted));
        },
        &mut || {
            plain_flows.copy_from_slice(&begun);
            plain_count = COUNT;
            let factors = black_box(factors);
            let _ = black_box(plain::add_flows(nodes, constraints, 1, limits, factors, book, &mut plain_flows, &mut plain_count));
        },
    ))
}

pub fn judge_flows(inputs: &Inputs) -> Result<Times, String> {
    let Size { constraints, .. } = inputs.size;
    let (limits, flows) = (&inputs.limits, totals(constraints));
    let Overload { mut set, mut count, mut lowest, mut excess } = Overload::default();
    for process in 0..3 {
        let lent = (&mut set, &mut count, &mut lowest, &mut excess);
        let proved = library::judge_flows(constraints, process, limits, &flows, COUNT, lent.0, lent.1, lent.2, lent.3);
        let plain = plain::judge_flows(constraints, process, limits, &flows, COUNT);
        agree(&(proved, Ok(Overload { set, count, lowest, excess })), &(0, plain))?;
    }
    Ok(side_by_side(
        &mut || {
            let lent = (&mut set, &mut count, &mut lowest, &mut excess);
            black_box(library::judge_flows(constraints, 0, limits, black_box(&flows), COUNT, lent.0, lent.1, lent.2, lent.3));
        },
        &mut || {
            let _ = black_box(plain::judge_flows(constraints, 0, limits, black_box(&flows), COUNT));
        },
    ))
}
