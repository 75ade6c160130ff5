//! The grid and its file.

use super::word::{bytes, field, padded, signed_field, Reader};
use super::{cells, constraints_fail, factor_fails, first, limit_fails, nodes_fail, Answer, Form};

/// `factors[node][constraint]`.
#[derive(Clone, Debug, PartialEq)]
pub struct Grid {
    pub nodes: i128,
    pub constraints: i128,
    pub limits: Vec<i128>,
    pub factors: Vec<Vec<i128>>,
}

impl Grid {
    /// The factors as a table, node by node.
    pub fn factor_cells(&self) -> Vec<i128> {
        self.factors.concat()
    }
}

/// The bits before the limits: 8, 7 and 1, and 16 more of the wide form's node count.
pub fn header_bits(form: Form) -> usize {
    match form {
        Form::Narrow => 8 + 7 + 1,
        Form::Wide => 8 + 7 + 1 + 16,
    }
}

/// The bytes that the counts fix.
pub fn size(form: Form, nodes: i128, constraints: i128) -> i128 {
    (header_bits(form) as i128 + 27 * constraints + 18 * constraints * nodes + 7) / 8
}

/// A narrow grid has at most 200 nodes.
fn form_nodes_fail(form: Form, nodes: i128) -> bool {
    nodes_fail(nodes) || form == Form::Narrow && nodes > 200
}

/// Factors in a table, node by node and within a node constraint by constraint, up to the first out of range.
pub fn by_node(nodes: i128, constraints: i128, table: &[i128]) -> Answer<Vec<Vec<i128>>> {
    first(&[(table.iter().any(|&factor| factor_fails(factor)), 7)])?;
    let row = |node: i128| table[(node * constraints) as usize..((node + 1) * constraints) as usize].to_vec();
    Ok((0..nodes).map(row).collect())
}

/// A file's header: wide where the node field is 0 and the spare bit set, and its node count then follows. 1, 2, 3, 4.
fn header(file: &[u8]) -> Answer<(Form, i128, i128)> {
    first(&[(file.len() < 2, 1)])?;
    let mut start = Reader::new(&file[..2]);
    let (field, constraints, spare) = (start.take(8), start.take(7), start.take(1));
    let form = if (field, spare) == (0, 1) { Form::Wide } else { Form::Narrow };
    first(&[(form == Form::Wide && file.len() < 4, 1)])?;
    let nodes = if form == Form::Wide { Reader::new(&file[2..4]).take(16) } else { field };
    let spare_fails = form == Form::Narrow && spare != 0;
    first(&[(form_nodes_fail(form, nodes), 2), (constraints_fail(constraints), 3), (spare_fails, 4)])?;
    Ok((form, nodes, constraints))
}

/// A file's form and grid, with no look at lent tables. A file longer than `most` bytes draws 5 where no earlier check does.
pub fn parse(file: &[u8], most: usize) -> Answer<(Form, Grid)> {
    let (form, nodes, constraints) = header(file)?;
    first(&[(file.len() as i128 != size(form, nodes, constraints), 5), (file.len() > most, 5)])?;
    let mut reader = Reader::new(file);
    reader.skip(header_bits(form));
    let limits: Vec<i128> = (0..constraints).map(|_| reader.take(27)).collect();
    first(&[(limits.iter().any(|&limit| limit_fails(limit)), 6)])?;
    let table: Vec<i128> = (0..nodes * constraints).map(|_| reader.take_signed(18)).collect();
    let factors = by_node(nodes, constraints, &table)?;
    reader.end()?;
    Ok((form, Grid { nodes, constraints, limits, factors }))
}

pub fn read(file: &[u8], limits: usize, factors: usize) -> Answer<(Form, Grid)> {
    let (form, grid) = parse(file, usize::MAX)?;
    let short = (limits as i128) < grid.constraints || (factors as i128) < grid.nodes * grid.constraints;
    first(&[(short, 9)])?;
    Ok((form, grid))
}

/// The file of a grid whose figures their fields hold.
pub fn file_of(form: Form, grid: &Grid) -> Vec<u8> {
    let constraints = field(grid.constraints, 7);
    let mut word = match form {
        Form::Narrow => field(grid.nodes, 8) + &constraints + "0",
        Form::Wide => field(0, 8) + &constraints + "1" + &field(grid.nodes, 16),
    };
    word.extend(grid.limits.iter().map(|&limit| field(limit, 27)));
    word.extend(grid.factors.iter().flatten().map(|&factor| signed_field(factor, 18)));
    bytes(&padded(word))
}

pub fn write(form: Form, nodes: usize, constraints: usize, limits: &[u64], factors: &[i64], room: usize) -> Answer<Vec<u8>> {
    let (nodes, constraints) = (nodes as i128, constraints as i128);
    first(&[(form_nodes_fail(form, nodes), 2), (constraints_fail(constraints), 3)])?;
    let limits = cells(limits, constraints)?;
    let table = cells(factors, nodes * constraints)?;
    first(&[(limits.iter().any(|&limit| limit_fails(limit)), 6)])?;
    let factors = by_node(nodes, constraints, &table)?;
    let file = file_of(form, &Grid { nodes, constraints, limits, factors });
    first(&[(room < file.len(), 9)])?;
    Ok(file)
}
