use super::book::{check_book, contracts, NARROW, WIDE};
use super::*;

/// The rows, a list for each column, and the loads of the LSEs.
pub struct Lists<'a> {
    pub classes: &'a [u8],
    pub customers: &'a [u64],
    pub rates: &'a [u64],
    pub olds: &'a [u64],
    pub news: &'a [u64],
    pub loads: &'a [u64],
}

/// Nets, a line for each loser.
type Square = [[i64; MAX_LSES]; MAX_LSES];

/// New contracts, as the numbers that their bytes are.
struct Made {
    records: [u64; MAX_CONTRACTS],
    count: usize,
}

fn check_rows(lists: &Lists, lses: usize) -> Result<(), Refusal> {
    let &Lists { classes, customers, rates, olds, news, loads: _ } = lists;
    let rows = customers.len();
    demand((1..=MAX_LSES).contains(&lses), MIGRATION_RANGE)?;
    demand(rows <= MAX_MIGRATION_ROWS && [classes.len(), rates.len(), olds.len(), news.len()] == [rows; 4], MIGRATION_RANGE)?;
    let columns = customers.iter().zip(rates).zip(olds.iter().zip(news));
    let bad = |((&customers, &rate), (&old, &new)): ((&u64, &u64), (&u64, &u64))| {
        let no_lse = |number: u64| number.wrapping_sub(1) >= lses as u64;
        (customers > 1_000_000) | (rate > 10_000) | no_lse(old) | no_lse(new) | (old == new)
    };
    demand(!columns.fold(false, |found, row| found | bad(row)), MIGRATION_RANGE)
}

fn check_lists(lists: &Lists) -> Result<(), Refusal> {
    check_rows(lists, lists.loads.len())?;
    demand(!lists.loads.iter().fold(false, |bad, &load| bad | (load > 1_000_000_000_000)), MIGRATION_RANGE)
}

/// Rows that have been checked, netted.
fn nets(lists: &Lists) -> Square {
    let mut lost: Square = [[0; MAX_LSES]; MAX_LSES];
    for ((&customers, &rate), (&old, &new)) in lists.customers.iter().zip(lists.rates).zip(lists.olds.iter().zip(lists.news)) {
        lost[(old - 1) as usize % MAX_LSES][(new - 1) as usize % MAX_LSES] += (customers * rate) as i64;
    }
    std::array::from_fn(|from| std::array::from_fn(|to| lost[from][to] - lost[to][from]))
}

fn check_loads(square: &Square, loads: &[u64]) -> Result<(), Refusal> {
    let losses = |line: &[i64; MAX_LSES]| line.iter().map(|&net| net.max(0)).sum::<i64>();
    demand(!square.iter().zip(loads).any(|(line, &load)| (load as i64) < losses(line)), LOAD_EXCEEDED)
}

/// What each base contract gives.
fn made<const BYTES: usize>(period: u64, book: &[u8], square: &Square, loads: &[u64], old: usize) -> Result<Made, Refusal> {
    let end = 4 * BYTES as u32 - 16;
    let mut made = Made { records: [0; MAX_CONTRACTS], count: 0 };
    let room = MAX_CONTRACTS - old;
    for c in contracts::<BYTES>(book) {
        let loser = c.holder.wrapping_sub(1) as usize;
        if c.option || c.period != period || loser >= loads.len() {
            continue;
        }
        for (gainer, &net) in (1..).zip(&square[loser]) {
            if net <= 0 {
                continue;
            }
            let quantity = c.quantity * net as u64 / loads[loser];
            if quantity == 0 {
                continue;
            }
            demand(made.count + 2 <= room, CONTRACT_COUNT)?;
            let (source, sink, start) = (c.source as u64, c.sink as u64, period << (30 + 2 * end) | quantity);
            made.records[made.count] = start | gainer << (20 + 2 * end) | source << (20 + end) | sink << 20;
            made.records[made.count + 1] = start | c.holder << (20 + 2 * end) | sink << (20 + end) | source << 20;
            made.count += 2;
        }
    }
    Ok(made)
}

fn grow<const BYTES: usize>(period: u64, book: &[u8], old: usize, lists: &Lists, file: &mut [u8]) -> Result<usize, Refusal> {
    let square = nets(lists);
    check_loads(&square, lists.loads)?;
    let Made { records, count } = made::<BYTES>(period, book, &square, lists.loads, old)?;
    let size = book.len() + BYTES * count;
    let file = file.get_mut(..size).ok_or(SHORT_TABLE)?;
    let (front, rest) = file.split_at_mut(book.len());
    front.copy_from_slice(book);
    front[..2].copy_from_slice(&(((old + count) as u16) << 6 | u16::from(book[1] & 0x3f)).to_be_bytes());
    for (bytes, record) in rest.chunks_exact_mut(BYTES).zip(&records[..count]) {
        bytes.copy_from_slice(&record.to_be_bytes()[8 - BYTES..]);
    }
    Ok(size)
}

#[inline(never)]
pub fn migrate_load(nodes: usize, period: u64, book: &[u8], lists: &Lists, file: &mut [u8]) -> Result<usize, Refusal> {
    demand(period <= 1, PERIOD_OR_KIND)?;
    check_nodes(nodes)?;
    let (old, form) = check_book(nodes, book)?;
    check_lists(lists)?;
    match form {
        Form::Narrow => grow::<NARROW>(period, book, old, lists, file),
        Form::Wide => grow::<WIDE>(period, book, old, lists, file),
    }
}

/// The square of so many LSEs, line by line.
#[inline(never)]
pub fn net_transfers(lses: usize, lists: &Lists, cells: &mut [i64]) -> Result<(), Refusal> {
    check_rows(lists, lses)?;
    let cells = cells.get_mut(..lses * lses).ok_or(SHORT_TABLE)?;
    let square = nets(lists);
    for (line, nets) in cells.chunks_exact_mut(lses).zip(&square) {
        line.copy_from_slice(&nets[..lses]);
    }
    Ok(())
}
