//! Random inputs, the same for the same seed: within every range, with the ends of the ranges often.

use crate::second::book::{largest_end, Contract};
use crate::second::grid::Grid;
use crate::second::Form;
pub use crate::splitmix::Draw;

impl Draw {
    /// From `low` to `high`, both included.
    pub fn within(&mut self, low: i128, high: i128) -> i128 {
        low + i128::from(self.next()) % (high - low + 1)
    }

    /// True once in `n`.
    pub fn once_in(&mut self, n: u64) -> bool {
        self.below(n) == 0
    }

    pub fn pick<T: Copy>(&mut self, from: &[T]) -> T {
        from[self.below(from.len() as u64) as usize]
    }

    /// An end of the range or one of `likely`, or else anything within.
    fn figure(&mut self, low: i128, high: i128, likely: &[i128]) -> i128 {
        match self.below(6) {
            0 => low,
            1 => high,
            2 | 3 if !likely.is_empty() => self.pick(likely),
            _ => self.within(low, high),
        }
    }

    pub fn form(&mut self) -> Form {
        self.pick(&[Form::Narrow, Form::Wide])
    }

    /// A form that a grid of so many nodes has.
    pub fn form_for(&mut self, nodes: i128) -> Form {
        if nodes > 200 {
            Form::Wide
        } else {
            self.form()
        }
    }

    /// The form of a round's book: wide and narrow in turn for the extremes.
    pub fn form_of(&mut self, round: u64) -> Form {
        match round as usize {
            extreme if extreme < EXTREMES.len() && extreme % 2 == 0 => Form::Wide,
            extreme if extreme < EXTREMES.len() => Form::Narrow,
            _ => self.form(),
        }
    }

    /// A number by which a writer is told the form.
    pub fn told(&mut self, form: Form) -> u64 {
        match form {
            Form::Narrow => 0,
            Form::Wide => self.pick(&[1, 1, 1, 2, 256, 1 << 32, 1 << 63, u64::MAX]),
        }
    }

    pub fn bytes(&mut self, count: usize) -> Vec<u8> {
        (0..count).map(|_| self.next() as u8).collect()
    }
}

/// How large a round's inputs are.
#[derive(Clone, Copy)]
pub struct Size {
    pub nodes: i128,
    pub constraints: i128,
    pub contracts: i128,
}

/// The first rounds have the extremes.
pub const EXTREMES: [Size; 11] = [
    Size { nodes: 200, constraints: 64, contracts: 1000 },
    Size { nodes: 200, constraints: 64, contracts: 1000 },
    Size { nodes: 1, constraints: 0, contracts: 0 },
    Size { nodes: 200, constraints: 0, contracts: 1000 },
    Size { nodes: 1, constraints: 64, contracts: 1000 },
    Size { nodes: 2, constraints: 1, contracts: 1 },
    Size { nodes: 4000, constraints: 64, contracts: 1000 },
    Size { nodes: 4000, constraints: 0, contracts: 1000 },
    Size { nodes: 4000, constraints: 1, contracts: 2 },
    Size { nodes: 201, constraints: 64, contracts: 100 },
    Size { nodes: 257, constraints: 2, contracts: 100 },
];

/// Node counts at which something changes.
const EDGES: [i128; 9] = [199, 200, 201, 255, 256, 257, 300, 3999, 4000];

/// Mostly small; some with many nodes.
pub fn size(draw: &mut Draw, round: u64) -> Size {
    if let Some(&extreme) = EXTREMES.get(round as usize) {
        return extreme;
    }
    let (nodes, constraints, contracts) = match draw.below(200) {
        0 | 1 => (draw.within(1, 200), 64, 100),
        2 => (draw.within(201, 4000), 3, 100),
        3..=12 => (draw.pick(&EDGES), 1, 4),
        _ => (draw.within(1, 5), 3, 4),
    };
    Size { nodes, constraints: draw.within(0, constraints), contracts: draw.within(0, contracts) }
}

pub fn grid(draw: &mut Draw, size: Size) -> Grid {
    let Size { nodes, constraints, .. } = size;
    let limits = (0..constraints).map(|_| draw.figure(0, 100_000_000, &[1, 99_999_999, 6_000, 8_000])).collect();
    let factors = (0..nodes).map(|_| (0..constraints).map(|_| factor(draw)).collect()).collect();
    Grid { nodes, constraints, limits, factors }
}

fn factor(draw: &mut Draw) -> i128 {
    draw.figure(-100_000, 100_000, &[0, 1, -1, 50_000, -50_000, 10_000, -20_000, 25_000])
}

pub fn prices(draw: &mut Draw, constraints: i128) -> Vec<i128> {
    (0..constraints).map(|_| draw.figure(0, 500_000, &[0, 1, 2, 5, 10, 1_000])).collect()
}

/// The ends of a book of this form are below this number.
pub fn ends_below(form: Form, nodes: i128) -> i128 {
    nodes.min(largest_end(form) + 1)
}

fn end(draw: &mut Draw, below: i128) -> i128 {
    match draw.below(8) {
        0 => below - 1,
        1 => 255.min(below - 1),
        2 => 256.min(below - 1),
        _ => draw.within(0, below - 1),
    }
}

/// A contract whose ends are often the same node.
fn contract(draw: &mut Draw, below: i128) -> Contract {
    let source = end(draw, below);
    let sink = if draw.once_in(4) { source } else { end(draw, below) };
    let holder = draw.figure(0, 1_023, &[7, 10, 100, 1_000]);
    let quantity = draw.figure(1, 1_000_000, &[10, 100, 500, 1_000, 10_000]);
    Contract { kind: draw.within(0, 1), period: draw.within(0, 1), holder, source, sink, quantity }
}

/// Contracts that a book of this form holds.
pub fn book(draw: &mut Draw, size: Size, form: Form) -> Vec<Contract> {
    let below = ends_below(form, size.nodes);
    (0..size.contracts).map(|_| contract(draw, below)).collect()
}
