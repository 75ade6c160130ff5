use super::book::{contracts, Contract, NARROW, WIDE};
use super::test::{carry, check_test, released, Flows, Tested};
use super::*;

/// A contract's cut and number as one number, which compares as rows are ordered.
const NUMBERS: u64 = 1024;

/// By how much each flow exceeds its released limit, and where it does.
struct Excesses {
    cells: Flows,
    over: [usize; MAX_CONSTRAINTS],
    count: usize,
}

fn excesses(process: u64, limits: &[u64], flows: &Flows) -> Excesses {
    let mut found = Excesses { cells: [0; MAX_CONSTRAINTS], over: [0; MAX_CONSTRAINTS], count: 0 };
    for (k, (&limit, &flow)) in limits.iter().zip(flows).enumerate() {
        found.cells[k] = flow - released(process, limit);
        found.over[found.count] = k;
        found.count += usize::from(found.cells[k] > 0);
    }
    found
}

/// The flow of one thousandth as it counts.
#[inline]
fn slope(option: bool, from: i64, to: i64) -> i64 {
    if option {
        (from - to).max(0)
    } else {
        from - to
    }
}

/// The least cut that clears every overload, where the quantity allows it.
#[inline]
fn need(found: &Excesses, source: &[i64], sink: &[i64], c: &Contract) -> Option<i64> {
    let mut need = 0;
    for &k in &found.over[..found.count] {
        let slope = slope(c.option, source[k], sink[k]);
        if slope <= 0 {
            return None;
        }
        need = need.max((found.cells[k] as u64).div_ceil(slope as u64) as i64);
    }
    (need <= c.quantity as i64).then_some(need)
}

/// Whether a cut leaves every constraint within its limit; no way out half way.
#[inline]
fn clears(cells: &[i64], source: &[i64], sink: &[i64], option: bool, cut: i64) -> bool {
    let rows = cells.iter().zip(source).zip(sink);
    rows.fold(0, |signs, ((&excess, &from), &to)| signs | (slope(option, from, to) * cut - excess)) >= 0
}

/// The keys of the contracts that have a cut, in book order; how many there are.
fn collect<const BYTES: usize>(found: &Excesses, period: u64, constraints: usize, factors: &[i64], book: &[u8], keys: &mut [u64]) -> usize {
    let mut listed = 0;
    for (number, c) in contracts::<BYTES>(book).enumerate().filter(|(_, c)| c.period == period) {
        let source = &factors[c.source * constraints..][..constraints];
        let sink = &factors[c.sink * constraints..][..constraints];
        if let Some(cut) = need(found, source, sink, &c) {
            if clears(&found.cells[..constraints], source, sink, c.option, cut) {
                keys[listed] = cut as u64 * NUMBERS + number as u64;
                listed += 1;
            }
        }
    }
    listed
}

/// The rows, into the first cells of both tables, and how many there are.
#[inline(never)]
#[allow(clippy::too_many_arguments)]
pub fn find_cuts(
    nodes: usize,
    constraints: usize,
    process: u64,
    period: u64,
    limits: &[u64],
    factors: &[i64],
    book: &[u8],
    numbers: &mut [u64],
    cuts: &mut [u64],
) -> Result<usize, Refusal> {
    let Tested { limits, factors, form } = check_test(nodes, constraints, process, period, limits, factors, book)?;
    let found = excesses(process, limits, &carry(constraints, period, factors, form, book));
    if found.count == 0 {
        return Ok(0);
    }
    let mut keys = [0; MAX_CONTRACTS];
    let listed = match form {
        Form::Narrow => collect::<NARROW>(&found, period, constraints, factors, book, &mut keys),
        Form::Wide => collect::<WIDE>(&found, period, constraints, factors, book, &mut keys),
    };
    let numbers = numbers.get_mut(..listed).ok_or(SHORT_TABLE)?;
    let cuts = cuts.get_mut(..listed).ok_or(SHORT_TABLE)?;
    let keys = &mut keys[..listed];
    keys.sort_unstable();
    for ((&key, number), cut) in keys.iter().zip(numbers).zip(cuts) {
        *number = key % NUMBERS;
        *cut = key / NUMBERS;
    }
    Ok(listed)
}
