//! The running test, proved and plain: first compared, then timed. An award costs the check of all factors and one contract's flows, whatever is held.

use crate::entries::agree;
use crate::inputs::{Inputs, Size};
use crate::library::{self, Opening, State};
use crate::plain::{self, Form, Refusal, RUNNING_AWARDS, RUNNING_FLOWS, RUNNING_NUMBERS};
use crate::timing::{side_by_side, Times};
use std::hint::black_box;

const MONTHLY: u64 = 2;
const ON_PEAK: u64 = 1;

/// The buffers of a running test.
#[derive(PartialEq)]
struct Buffers {
    awards: Vec<u64>,
    numbers: Vec<u64>,
    flows: Vec<i64>,
}

impl Buffers {
    fn new() -> Self {
        Buffers { awards: vec![7; RUNNING_AWARDS], numbers: vec![7; RUNNING_NUMBERS], flows: vec![7; RUNNING_FLOWS] }
    }

    fn state(&mut self) -> State<'_> {
        State { awards: &mut self.awards, numbers: &mut self.numbers, flows: &mut self.flows }
    }
}

/// A running test of both sides.
struct Both {
    proved: Buffers,
    plain: Buffers,
}

impl Both {
    /// One operation of each: the same answer and the same cells.
    fn same(&mut self, proved: impl Fn(&mut State) -> u64, plain: impl Fn(&mut State) -> Result<(), Refusal>) -> Result<u64, String> {
        let number = proved(&mut self.proved.state());
        let answer = plain(&mut self.plain.state());
        agree(&number, &answer.err().unwrap_or(0))?;
        agree(&self.proved, &self.plain)?;
        Ok(number)
    }

    /// Opened, and tier 1 marked at once.
    fn open(opening: &Opening) -> Result<Self, String> {
        let mut both = Both { proved: Buffers::new(), plain: Buffers::new() };
        both.same(|state| library::open_running(opening, state), |state| plain::open_running(opening, state))?;
        both.mark(1)?;
        Ok(both)
    }

    fn add(&mut self, opening: &Opening, row: &[u64]) -> Result<u64, String> {
        self.same(|state| library::add_award(opening, row, state), |state| plain::add_award(opening, row, state))
    }

    fn mark(&mut self, tier: u64) -> Result<u64, String> {
        self.same(|state| library::mark_tier(tier, state), |state| plain::mark_tier(tier, state))
    }

    fn return_to(&mut self, tier: u64) -> Result<u64, String> {
        self.same(|state| library::return_to_tier(tier, state), |state| plain::return_to_tier(tier, state))
    }
}

/// The tables of a running test on which every award of the list is held: each is followed by its counter-flow.
struct Tried {
    size: Size,
    limits: Vec<u64>,
    factors: Vec<i64>,
    rows: Vec<Vec<u64>>,
}

impl Tried {
    fn new(size: Size) -> Self {
        let form = if size.nodes > 200 { Form::Wide } else { Form::Narrow };
        let Inputs { factors, book, .. } = Inputs::new(size, form);
        let there = |row: &[u64]| vec![0, ON_PEAK, row[2], row[3], row[4], row[5]];
        let back = |row: &[u64]| vec![0, ON_PEAK, row[2], row[4], row[3], row[5]];
        let rows = book.chunks_exact(6).take(size.contracts / 2).flat_map(|row| [there(row), back(row)]).collect();
        Tried { size, limits: vec![100_000_000; size.constraints], factors, rows }
    }

    fn opening(&self) -> Opening<'_> {
        let Size { nodes, constraints, .. } = self.size;
        Opening { nodes, constraints, process: MONTHLY, period: ON_PEAK, limits: &self.limits, factors: &self.factors }
    }

    /// All rows as they are, as options and of the other period, and a full running test; on limits of 0 the same are refused.
    fn agreed(&self) -> Result<(), String> {
        let none = vec![0; self.size.constraints];
        for opening in [self.opening(), Opening { limits: &none, ..self.opening() }] {
            let mut both = Both::open(&opening)?;
            for (i, row) in self.rows.iter().enumerate() {
                let mut row = row.clone();
                (row[0], row[1]) = [(0, 1), (1, 1), (0, 0)][i % 3];
                both.add(&opening, &row)?;
                if i % 100 == 0 {
                    both.mark(2 + i as u64 / 100 % 3)?;
                }
            }
            both.return_to(3)?;
            both.return_to(1)?;
            agree(&both.return_to(3)?, &20)?;
        }
        Ok(())
    }
}

/// One award after another; when 1,000 are held, back to the first.
pub fn add_award(size: Size) -> Result<Times, String> {
    let tried = Tried::new(size);
    tried.agreed()?;
    let opening = tried.opening();
    let mut both = Both::open(&opening)?;
    for row in &tried.rows {
        agree(&both.add(&opening, row)?, &0)?;
    }
    let (mut proved, mut plain) = (both.proved.state(), both.plain.state());
    let (mut at, mut plain_at) = (tried.rows.len(), tried.rows.len());
    Ok(side_by_side(
        &mut || {
            if at == tried.rows.len() {
                at = 0;
                black_box(library::return_to_tier(1, &mut proved));
            }
            black_box(library::add_award(black_box(&opening), &tried.rows[at], &mut proved));
            at += 1;
        },
        &mut || {
            if plain_at == tried.rows.len() {
                plain_at = 0;
                let _ = black_box(plain::return_to_tier(1, &mut plain));
            }
            let _ = black_box(plain::add_award(black_box(&opening), &tried.rows[plain_at], &mut plain));
            plain_at += 1;
        },
    ))
}

pub fn open_running(size: Size) -> Result<Times, String> {
    let tried = Tried::new(size);
    let opening = tried.opening();
    let mut both = Both::open(&opening)?;
    let (mut proved, mut plain) = (both.proved.state(), both.plain.state());
    Ok(side_by_side(
        &mut || {
            black_box(library::open_running(black_box(&opening), &mut proved));
        },
        &mut || {
            let _ = black_box(plain::open_running(black_box(&opening), &mut plain));
        },
    ))
}

/// A tier marked and returned to.
pub fn mark_and_return(size: Size) -> Result<Times, String> {
    let tried = Tried::new(size);
    let opening = tried.opening();
    let mut both = Both::open(&opening)?;
    for row in tried.rows.iter().take(101) {
        agree(&both.add(&opening, row)?, &0)?;
    }
    let (mut proved, mut plain) = (both.proved.state(), both.plain.state());
    Ok(side_by_side(
        &mut || {
            black_box(library::mark_tier(black_box(3), &mut proved));
            black_box(library::return_to_tier(black_box(3), &mut proved));
        },
        &mut || {
            let _ = black_box(plain::mark_tier(black_box(3), &mut plain));
            let _ = black_box(plain::return_to_tier(black_box(3), &mut plain));
        },
    ))
}
