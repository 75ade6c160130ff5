//! What a book costs, at a price list and at worst, proved and plain: first compared, then timed. The worst is searched among the sets of overloaded
//! constraints where there are up to ten, and bracketed beyond.

use crate::entries::agree;
use crate::inputs::{Inputs, Size};
use crate::library;
use crate::plain::{self, ExactCents, Form};
use crate::timing::{side_by_side, Times};
use std::hint::black_box;

/// So many constraints are overloaded where nothing else is said: the most of which every set is tried.
pub const OVER: usize = 10;

const PROCESS: u64 = 2;
const PERIOD: u64 = 1;

pub fn find_shortfall(inputs: &Inputs) -> Result<Times, String> {
    let Size { nodes, constraints, .. } = inputs.size;
    let (limits, factors, prices, book) = (&inputs.limits, &inputs.factors, &inputs.prices, &inputs.book_file);
    let [mut payment, mut rent, mut shortfall] = [ExactCents::default(); 3];
    let mut proved = |process: u64, period: u64, factors: &[i64]| {
        let [payment, rent, shortfall] = [&mut payment, &mut rent, &mut shortfall].map(|own| (&mut own.whole, &mut own.parts));
        let answer = library::find_shortfall(
            nodes,
            constraints,
            process,
            period,
            limits,
            factors,
            prices,
            book,
            payment.0,
            payment.1,
            rent.0,
            rent.1,
            shortfall.0,
            shortfall.1,
        );
        (answer, [(*payment.0, *payment.1), (*rent.0, *rent.1), (*shortfall.0, *shortfall.1)])
    };
    let plain = |process: u64, period: u64, factors: &[i64]| {
        plain::find_shortfall(nodes, constraints, process, period, limits, factors, prices, book)
    };
    for (process, period) in [(0, 0), (0, 1), (1, 0), (1, 1), (2, 0), (2, 1)] {
        let (answer, figures) = proved(process, period, factors);
        agree(&(answer, Ok(figures.map(|(whole, parts)| ExactCents { whole, parts }))), &(0, plain(process, period, factors)))?;
    }
    Ok(side_by_side(
        &mut || {
            black_box(proved(PROCESS, PERIOD, black_box(factors)));
        },
        &mut || {
            let _ = black_box(plain(PROCESS, PERIOD, black_box(factors)));
        },
    ))
}

/// Limits that the on-peak book exceeds in the monthly process at the first so many constraints, by 10 MW, half of the flow, and so on in turn. The others
/// have 1,000 MW to spare.
fn limits(inputs: &Inputs, over: usize) -> Result<Vec<u64>, String> {
    let Size { nodes, constraints, .. } = inputs.size;
    let mut flows = vec![0; constraints];
    plain::find_flows(nodes, constraints, PERIOD, &inputs.limits, &inputs.factors, &inputs.book_file, &mut flows).expect("tables in range");
    let limit = |(k, &flow): (usize, &i64)| match flow / 100_000 {
        limit if k >= over => limit + 1_000_000,
        limit if k % 2 == 0 => limit - 10_000,
        limit => limit / 2,
    };
    let limits: Vec<i64> = flows.iter().enumerate().map(limit).collect();
    if limits.iter().any(|limit| !(0..=100_000_000).contains(limit)) {
        return Err("the flows leave no room for such limits".to_string());
    }
    Ok(limits.iter().map(|&limit| limit as u64).collect())
}

/// On a book that overloads so many constraints.
pub fn find_exposure(size: Size, form: Form, over: usize) -> Result<Times, String> {
    let inputs = Inputs::new(size, form);
    let Size { nodes, constraints, .. } = size;
    let (limits, factors, book) = (&limits(&inputs, over)?, &inputs.factors, &inputs.book_file);
    let (mut prices, mut plain_prices) = (vec![0; constraints], vec![0; constraints]);
    let [mut least, mut most] = [ExactCents::default(); 2];
    for (process, period) in [(0, 0), (0, 1), (1, 0), (1, 1), (2, 0), (2, 1)] {
        let lent = (&mut prices, &mut least.whole, &mut least.parts, &mut most.whole, &mut most.parts);
        let proved =
            library::find_exposure(nodes, constraints, process, period, limits, factors, book, lent.0, lent.1, lent.2, lent.3, lent.4);
        let plain = plain::find_exposure(nodes, constraints, process, period, limits, factors, book, &mut plain_prices);
        agree(&(proved, Ok([least, most])), &(0, plain))?;
        agree(&prices, &plain_prices)?;
    }
    let tested = plain::test_book(nodes, constraints, PROCESS, PERIOD, limits, factors, book);
    agree(&tested.map(|own| own.count), &Ok(over))?;
    Ok(side_by_side(
        &mut || {
            let lent = (&mut prices, &mut least.whole, &mut least.parts, &mut most.whole, &mut most.parts);
            let factors = black_box(factors);
            black_box(library::find_exposure(
                nodes,
                constraints,
                PROCESS,
                PERIOD,
                limits,
                factors,
                book,
                lent.0,
                lent.1,
                lent.2,
                lent.3,
                lent.4,
            ));
        },
        &mut || {
            let factors = black_box(factors);
            let _ = black_box(plain::find_exposure(nodes, constraints, PROCESS, PERIOD, limits, factors, book, &mut plain_prices));
        },
    ))
}
