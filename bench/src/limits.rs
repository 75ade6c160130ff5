//! How fast the machine itself is at what an entry does: as many multiply-adds as the test of a book makes, and a copy of as many bytes as a reader reads
//! and writes.

use crate::inputs::Inputs;
use crate::plain;
use crate::timing::alone;
use std::hint::black_box;

/// What one call does, and how long the machine takes for as much, in microseconds.
pub struct Limit {
    pub amount: usize,
    pub unit: &'static str,
    pub way: &'static str,
    pub micros: f64,
}

const TURNS: usize = 10_000;
const CHAINS: usize = 8;
const LANES: usize = 4;

/// Products and sums of 64 bits in so many chains that none waits for another.
#[inline(never)]
fn one_at_a_time(factor: i64, terms: &[i64; CHAINS]) -> i64 {
    let mut sums = *terms;
    for _ in 0..TURNS {
        for (sum, &term) in sums.iter_mut().zip(terms) {
            *sum = sum.wrapping_mul(factor).wrapping_add(term);
        }
    }
    sums.iter().fold(0, |sum, &own| sum ^ own)
}

/// Products of 32 by 32 bits, which a factor's difference and a quantity fit, and sums of 64.
#[inline(never)]
fn in_vectors(factor: i32, terms: &[[i64; LANES]; CHAINS]) -> i64 {
    let mut sums = *terms;
    for _ in 0..TURNS {
        for (own, terms) in sums.iter_mut().zip(terms) {
            for (sum, &term) in own.iter_mut().zip(terms) {
                *sum = (i64::from(*sum as i32) * i64::from(factor)).wrapping_add(term);
            }
        }
    }
    sums.iter().flatten().fold(0, |sum, &own| sum ^ own)
}

/// On-peak contracts by constraints: each adds a product to a flow. AVX2 multiplies four pairs of 32 bits at once; x86-64 has nothing like it.
pub fn test_book(inputs: &Inputs) -> Result<Limit, String> {
    let size = inputs.size;
    let mut flows = vec![0; size.constraints];
    let counted = plain::find_flows(size.nodes, size.constraints, 1, &inputs.limits, &inputs.factors, &inputs.book_file, &mut flows)
        .map_err(|number| format!("refused {number}"))?;
    let amount = counted * size.constraints;
    let (one, four) = ([12_345; CHAINS], [[12_345; LANES]; CHAINS]);
    let vectors = cfg!(target_feature = "avx2");
    let (way, at_once) = if vectors { ("in vectors", CHAINS * LANES) } else { ("one at a time", CHAINS) };
    let micros = alone(&mut || {
        black_box(match vectors {
            true => in_vectors(black_box(99_991), black_box(&four)),
            false => one_at_a_time(black_box(99_991), black_box(&one)),
        });
    });
    Ok(Limit { amount, unit: "multiply-adds", way, micros: micros * amount as f64 / (TURNS * at_once) as f64 })
}

/// A copy of half as many bytes reads and writes as many as a file's and its tables' together.
fn reading(file: &[u8], cells: usize) -> Limit {
    let amount = file.len() + 8 * cells;
    let (from, mut to) = (vec![1u8; amount / 2], vec![0u8; amount / 2]);
    let micros = alone(&mut || {
        to.copy_from_slice(black_box(&from));
        black_box(&to);
    });
    Limit { amount, unit: "bytes", way: "memcpy", micros }
}

pub fn read_grid(inputs: &Inputs) -> Result<Limit, String> {
    Ok(reading(&inputs.grid_file, inputs.limits.len() + inputs.factors.len()))
}

pub fn read_book(inputs: &Inputs) -> Result<Limit, String> {
    Ok(reading(&inputs.book_file, inputs.book.len()))
}

pub fn read_prices(inputs: &Inputs) -> Result<Limit, String> {
    Ok(reading(&inputs.price_file, inputs.prices.len()))
}
