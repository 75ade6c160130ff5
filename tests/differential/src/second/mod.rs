//! A second implementation of the scope document and the change requests: integers of 128 bits, files as words of '0' and '1', and nothing taken from the
//! proved code. Each operation gives what is written, or the number of the refusal.

pub mod book;
pub mod calendar;
pub mod canonical;
pub mod cuts;
pub mod exposure;
pub mod flows;
pub mod grid;
pub mod hubs;
pub mod migration;
pub mod own;
pub mod prices;
pub mod refusals;
pub mod remap;
pub mod running;
pub mod settlement;
pub mod shares;
pub mod test;
pub mod text;
pub mod totals;
pub mod views;
pub mod word;

pub type Answer<T> = Result<T, u64>;

/// The first refusal whose condition holds.
pub fn first(checks: &[(bool, u64)]) -> Answer<()> {
    match checks.iter().find(|(fails, _)| *fails) {
        Some((_, refusal)) => Err(*refusal),
        None => Ok(()),
    }
}

/// The two forms of a grid's file and of a book's (paper 9).
#[derive(Clone, Copy, Debug, PartialEq, Eq)]
pub enum Form {
    Narrow,
    Wide,
}

impl Form {
    /// As a writer is told: 0 is narrow, any other number wide.
    pub fn told(number: u64) -> Self {
        if number == 0 {
            Form::Narrow
        } else {
            Form::Wide
        }
    }

    /// As a reader tells it.
    pub fn number(self) -> i128 {
        match self {
            Form::Narrow => 0,
            Form::Wide => 1,
        }
    }
}

/// A stated node count, or that of a wide grid.
pub fn nodes_fail(nodes: i128) -> bool {
    nodes == 0 || nodes > 4000
}

pub fn constraints_fail(constraints: i128) -> bool {
    constraints > 64
}

pub fn limit_fails(limit: i128) -> bool {
    limit > 100_000_000
}

pub fn factor_fails(factor: i128) -> bool {
    factor.abs() > 100_000
}

pub fn price_fails(price: i128) -> bool {
    price > 500_000
}

/// A set of constraints as a number: 2^k for each.
pub fn set_of(constraints: &[usize]) -> i128 {
    constraints.iter().map(|&k| 2i128.pow(k as u32)).sum()
}

/// The first `count` cells of a table, or 9 where it is too short.
pub fn cells<T: Copy + Into<i128>>(table: &[T], count: i128) -> Answer<Vec<i128>> {
    if (table.len() as i128) < count {
        return Err(9);
    }
    Ok(table[..count as usize].iter().map(|&cell| cell.into()).collect())
}
