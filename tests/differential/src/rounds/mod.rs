//! The rounds of each entry: a valid input, then what can go wrong with it, alone and together.

pub mod book;
pub mod calendar;
pub mod canonical;
pub mod cuts;
pub mod demand;
pub mod exposure;
pub mod flows;
pub mod forms;
pub mod grid;
pub mod headers;
pub mod hub_book;
pub mod hub_mcc;
pub mod hubs;
pub mod migration;
pub mod priced;
pub mod prices;
pub mod refusals;
pub mod remap;
pub mod reordering;
pub mod running;
pub mod settlement;
pub mod shares;
pub mod shortfall;
pub mod test;
pub mod text;
pub mod totals;
pub mod view_pairs;
pub mod views;

use crate::draw::Draw;
use crate::second::{Answer, Form};

pub const WRONG_NODES: [usize; 9] = [0, 4001, 4095, 4096, 65_535, 65_536, 1 << 32, 1 << 63, usize::MAX];
pub const WRONG_CONSTRAINTS: [usize; 7] = [65, 127, 128, 256, 1 << 32, 1 << 63, usize::MAX];
pub const WRONG_CONTRACTS: [usize; 6] = [1001, 1023, 1024, 1 << 32, 1 << 63, usize::MAX];
pub const WRONG_PERIODS: [u64; 5] = [2, 256, 1 << 32, 1 << 63, u64::MAX];
pub const WRONG_PROCESSES: [u64; 5] = [3, 256, 1 << 32, 1 << 63, u64::MAX];
pub const WRONG_LIMITS: [u64; 5] = [100_000_001, 134_217_727, 1 << 32, 1 << 63, u64::MAX];
pub const WRONG_FACTORS: [i64; 8] = [100_001, -100_001, 131_071, -131_072, 1 << 32, -(1 << 32), i64::MIN, i64::MAX];
pub const WRONG_PRICES: [u64; 5] = [500_001, 524_287, 1 << 32, 1 << 63, u64::MAX];
pub const GROWTH: [usize; 3] = [1, 2, 7];

/// Figures as cells of a table, and some cells more that must not be looked at.
pub fn table<T: Copy>(draw: &mut Draw, figures: &[i128], cell: fn(i128) -> T, beyond: T) -> Vec<T> {
    let mut cells: Vec<T> = figures.iter().map(|&figure| cell(figure)).collect();
    cells.extend((0..draw.below(3)).map(|_| beyond));
    cells
}

/// Puts a wrong figure into one of the first `count` cells.
pub fn spoil<T: Copy>(draw: &mut Draw, cells: &mut [T], count: usize, wrong: &[T]) {
    let count = count.min(cells.len());
    if count > 0 {
        cells[draw.below(count as u64) as usize] = draw.pick(wrong);
    }
}

/// A writer's answer as a refusal's number and the bytes written.
pub fn written(second: &Answer<Vec<u8>>) -> (u64, Vec<i128>) {
    match second {
        Ok(file) => (0, file.iter().map(|&byte| i128::from(byte)).collect()),
        Err(number) => (*number, Vec::new()),
    }
}

pub fn flipped(file: &[u8], bit: usize) -> Vec<u8> {
    let mut file = file.to_vec();
    file[bit / 8] ^= 0x80 >> (bit % 8);
    file
}

/// The file longer by `count` bytes.
pub fn grown(draw: &mut Draw, file: &[u8], count: usize) -> Vec<u8> {
    let mut file = file.to_vec();
    let more = if draw.once_in(2) { vec![0; count] } else { draw.bytes(count) };
    file.extend(more);
    file
}

/// The cases that are shown, of a list of cases.
pub fn names<const N: usize>(cases: &[&'static str; N], shown: [bool; N]) -> Vec<&'static str> {
    (0..N).filter(|&case| shown[case]).map(|case| cases[case]).collect()
}

/// What is said where a check fails that is no lent cell's.
pub fn unless(holds: bool, what: &str) -> Option<String> {
    (!holds).then(|| what.to_string())
}

/// A valid file cut, grown, with each bit of its header flipped and some of its body's, and files that are no such file.
pub fn damaged(draw: &mut Draw, file: &[u8], header: usize) -> Vec<Vec<u8>> {
    let mut files: Vec<Vec<u8>> = GROWTH.iter().map(|&count| grown(draw, file, count)).collect();
    files.extend((0..header.min(8 * file.len())).map(|bit| flipped(file, bit)));
    let body = 8 * file.len() as u64 - header as u64;
    if body > 0 {
        files.extend((0..10).map(|_| flipped(file, header + draw.below(body) as usize)));
        // the last bits: padding, where the file has any
        files.extend((1..8).map(|back| flipped(file, 8 * file.len() - back)));
    }
    files.extend((0..3).map(|_| {
        let length = draw.below(12) as usize;
        draw.bytes(length)
    }));
    files
}

/// Every length below the file's own.
pub fn cuts(file: &[u8]) -> impl Iterator<Item = &[u8]> {
    (0..file.len()).map(move |length| &file[..length])
}

/// The first lengths and the last, and all of a short file.
pub fn some_cuts(file: &[u8]) -> impl Iterator<Item = &[u8]> {
    cuts(file).filter(|cut| cut.len() < 40 || cut.len() + 3 > file.len())
}

/// One less, where there is one.
pub fn short(length: usize) -> usize {
    length.saturating_sub(1)
}
