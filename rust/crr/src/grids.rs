//! Grids.

use crate::lent;
use crate::refused::{answered, written, Refused};
use crate::sizes::{MAX_CONSTRAINTS, MAX_GRID_BYTES, MAX_NODES};
use crate::terms::Form;

/// A grid: its limits, and its shift factors node by node, that of node n on constraint k in cell n * constraints + k.
#[derive(Clone, Debug, PartialEq, Eq)]
pub struct Grid {
    /// The form of its file.
    pub form: Form,
    /// How many nodes it has, 1 to 4,000.
    pub nodes: usize,
    /// How many constraints it has, up to 64.
    pub constraints: usize,
    /// Thousandths of a MW.
    pub limits: Vec<u64>,
    /// Hundred-thousandths.
    pub factors: Vec<i64>,
}

impl Grid {
    /// Reads a grid's file, of either form.
    pub fn read(file: &[u8]) -> Result<Grid, Refused> {
        let (mut limits, mut factors) = (vec![0; MAX_CONSTRAINTS], vec![0; MAX_NODES * MAX_CONSTRAINTS]);
        let (mut nodes, mut constraints, mut form) = (0, 0, 0);
        answered(|| lent::read_grid(file, &mut limits, &mut factors, &mut nodes, &mut constraints, &mut form))?;
        limits.truncate(constraints);
        factors.truncate(nodes * constraints);
        factors.shrink_to_fit();
        Ok(Grid { form: Form::told(form), nodes, constraints, limits, factors })
    }

    /// Its file, in its form.
    pub fn write(&self) -> Result<Vec<u8>, Refused> {
        let Grid { form, nodes, constraints, limits, factors } = self;
        written(MAX_GRID_BYTES, |file, bytes| lent::write_grid(*form as u64, *nodes, *constraints, limits, factors, file, bytes))
    }
}
