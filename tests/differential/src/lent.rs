//! Lent cells: a slice within a longer one, whose outer cells, like its own before the call, hold values drawn at random.

use crate::draw::Draw;
use std::fmt::{Debug, Display};

const MARGIN: usize = 5;

pub trait Cell: Copy + PartialEq + Debug + Display {
    /// What the cell holds before the call.
    fn before(mark: u64) -> Self;
    fn of(figure: i128) -> Self;
}

macro_rules! cell {
    ($type:ty) => {
        impl Cell for $type {
            fn before(mark: u64) -> Self {
                mark as $type
            }

            fn of(figure: i128) -> Self {
                <$type>::try_from(figure).expect("the second implementation's figure fits its cell")
            }
        }
    };
}

cell!(u8);
cell!(u64);
cell!(i64);
cell!(usize);

pub struct Lent<T> {
    name: &'static str,
    entry: Vec<T>,
    cells: Vec<T>,
}

impl<T: Cell> Lent<T> {
    pub fn new(draw: &mut Draw, name: &'static str, length: usize) -> Self {
        let (mark, step) = (draw.next(), draw.next() | 1);
        let whole = length + 2 * MARGIN;
        let entry: Vec<T> = (0..whole as u64).map(|i| T::before(mark.wrapping_add(i.wrapping_mul(step)).rotate_left(29))).collect();
        Lent { name, cells: entry.clone(), entry }
    }

    /// Cells that are read, too: they hold what is given.
    pub fn holding(draw: &mut Draw, name: &'static str, held: &[T]) -> Self {
        let mut lent = Lent::new(draw, name, held.len());
        lent.slice().copy_from_slice(held);
        lent.entry.clone_from(&lent.cells);
        lent
    }

    pub fn slice(&mut self) -> &mut [T] {
        let end = self.cells.len() - MARGIN;
        &mut self.cells[MARGIN..end]
    }

    /// The one cell of a lent figure.
    pub fn figure(&mut self) -> &mut T {
        &mut self.slice()[0]
    }

    /// The first cell that is not as it must be: the first cells hold what was written, all others what they held at entry.
    pub fn difference(&self, written: &[i128]) -> Option<String> {
        let end = MARGIN + written.len();
        let untouched = self.cells[..MARGIN] == self.entry[..MARGIN] && self.cells[end..] == self.entry[end..];
        let as_written = self.cells[MARGIN..end].iter().zip(written).all(|(&cell, &figure)| cell == T::of(figure));
        if untouched && as_written {
            return None;
        }
        let expected = |i: usize| if (MARGIN..end).contains(&i) { T::of(written[i - MARGIN]) } else { self.entry[i] };
        let at = (0..self.cells.len()).find(|&i| self.cells[i] != expected(i))?;
        let place = at as i128 - MARGIN as i128;
        Some(format!("{}[{place}]: proved {}, second {}", self.name, self.cells[at], expected(at)))
    }
}
