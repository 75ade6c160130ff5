//! Reading and writing grids.

use super::*;
use crate::draw::{self, Size};
use crate::lent::Lent;
use crate::library;
use crate::second::grid::{self, Grid};
use crate::tally::Round;

/// What was read, written again in the form read, must be the file.
fn written_again(file: &[u8], form: u64, nodes: usize, constraints: usize, limits: &[u64], factors: &[i64]) -> Option<String> {
    let (mut again, mut bytes) = (vec![0; file.len()], 0);
    let answer = library::write_grid(form, nodes, constraints, limits, factors, &mut again, &mut bytes);
    unless((answer, bytes) == (0, file.len()) && again == file, "written again it is another file")
}

pub fn read_call(round: &mut Round, file: &[u8], limits: usize, factors: usize) {
    let second = grid::read(file, limits, factors);
    let mut limit_cells = Lent::<u64>::new(&mut round.draw, "limits", limits);
    let mut factor_cells = Lent::<i64>::new(&mut round.draw, "factors", factors);
    let mut nodes = Lent::<usize>::new(&mut round.draw, "nodes", 1);
    let mut constraints = Lent::<usize>::new(&mut round.draw, "constraints", 1);
    let mut form = Lent::<u64>::new(&mut round.draw, "form", 1);
    let lent = (nodes.figure(), constraints.figure(), form.figure());
    let proved = library::read_grid(file, limit_cells.slice(), factor_cells.slice(), lent.0, lent.1, lent.2);
    round.shown(&forms::grid_read(
        file,
        second.as_ref().map(|(form, grid)| (*form, grid.nodes, grid.constraints)).map_err(|number| *number),
    ));
    let (number, figures, counts) = match &second {
        Ok((form, grid)) => (0, grid.factor_cells(), [vec![grid.nodes], vec![grid.constraints], vec![form.number()]]),
        Err(number) => (*number, Vec::new(), Default::default()),
    };
    let limits = second.map(|(_, grid)| grid.limits).unwrap_or_default();
    let mut differences = vec![
        limit_cells.difference(&limits),
        factor_cells.difference(&figures),
        nodes.difference(&counts[0]),
        constraints.difference(&counts[1]),
        form.difference(&counts[2]),
    ];
    if proved == 0 {
        let (form, nodes, constraints) = (*form.figure(), *nodes.figure(), *constraints.figure());
        differences.push(written_again(file, form, nodes, constraints, limit_cells.slice(), factor_cells.slice()));
    }
    round.compare(proved, number, &differences);
}

/// A file whose limit or factor its field holds and its range does not.
pub fn out_of_range(draw: &mut Draw, form: Form, grid: &Grid) -> Vec<u8> {
    let mut grid = grid.clone();
    let constraints = grid.limits.len();
    if draw.once_in(2) {
        spoil(draw, &mut grid.limits, constraints, &[100_000_001, 134_217_727]);
    }
    let node = draw.below(grid.factors.len() as u64) as usize;
    spoil(draw, &mut grid.factors[node], constraints, &[100_001, -100_001, 131_071, -131_072]);
    grid::file_of(form, &grid)
}

/// Files that are whole but for a count above the largest of their form.
pub fn too_large(draw: &mut Draw) -> [Vec<u8>; 4] {
    let narrow = Size { nodes: draw.within(201, 255), constraints: draw.within(0, 2), contracts: 0 };
    let most = if draw.once_in(50) { 1 } else { 0 };
    let wide = Size { nodes: draw.pick(&[4001, 4095, 4096, 65_535]), constraints: draw.within(0, most), contracts: 0 };
    let constraints = Size { nodes: draw.within(1, 2), constraints: draw.within(65, 127), contracts: 0 };
    [(Form::Narrow, narrow), (Form::Wide, wide), (Form::Narrow, constraints), (Form::Wide, constraints)]
        .map(|(form, size)| grid::file_of(form, &draw::grid(draw, size)))
}

/// Few calls where each is long.
fn calls(size: Size, usual: usize) -> usize {
    if size.nodes * size.constraints > 20_000 {
        2
    } else {
        usual
    }
}

pub fn read(round: &mut Round) {
    let size = draw::size(&mut round.draw, round.number);
    let form = round.draw.form_for(size.nodes);
    let grid = draw::grid(&mut round.draw, size);
    let file = grid::file_of(form, &grid);
    let (limits, factors) = (grid.limits.len(), grid.factor_cells().len());
    for (limits, factors) in [(limits, factors), (limits + 1, factors + 7), (short(limits), factors), (limits, short(factors)), (0, 0)] {
        read_call(round, &file, limits, factors);
    }
    for cut in some_cuts(&file).chain(cuts(&file).take(if round.number < 2 { 30_000 } else { 400 })) {
        read_call(round, cut, limits, factors.min(20));
    }
    for file in damaged(&mut round.draw, &file, grid::header_bits(form)) {
        read_call(round, &file, limits, factors);
    }
    for file in too_large(&mut round.draw) {
        read_call(round, &file, limits + 127, factors + 600);
    }
    for _ in 0..calls(size, 6) {
        let file = out_of_range(&mut round.draw, form, &grid);
        read_call(round, &file, limits, factors);
        let last = 8 * file.len() - 1;
        read_call(round, &flipped(&file, last), short(limits), factors);
    }
}

struct Tables {
    form: u64,
    nodes: usize,
    constraints: usize,
    limits: Vec<u64>,
    factors: Vec<i64>,
    room: usize,
}

/// What was written, read again, must be what was handed in.
fn read_back(asked: &Tables, file: &[u8]) -> Option<String> {
    let (count, cells) = (asked.constraints, asked.nodes * asked.constraints);
    let (mut limits, mut factors) = (vec![0; count], vec![0; cells]);
    let (mut nodes, mut constraints, mut form) = (0, 0, 7);
    let answer = library::read_grid(file, &mut limits, &mut factors, &mut nodes, &mut constraints, &mut form);
    let counts = (answer, nodes, constraints, form) == (0, asked.nodes, count, u64::from(asked.form != 0));
    unless(counts && limits == asked.limits[..count] && factors == asked.factors[..cells], "read again it is another grid")
}

fn write_call(round: &mut Round, asked: &Tables) {
    let Tables { form, nodes, constraints, limits, factors, room } = asked;
    let second = grid::write(Form::told(*form), *nodes, *constraints, limits, factors, *room);
    let mut file = Lent::<u8>::new(&mut round.draw, "file", *room);
    let mut bytes = Lent::<usize>::new(&mut round.draw, "bytes", 1);
    let proved = library::write_grid(*form, *nodes, *constraints, limits, factors, file.slice(), bytes.figure());
    let (number, written) = written(&second);
    let count = second.map(|file| vec![file.len() as i128]).unwrap_or_default();
    round.shown(&forms::grid_written(*form, *nodes, number));
    let mut differences = vec![file.difference(&written), bytes.difference(&count)];
    if (proved, number) == (0, 0) {
        differences.push(read_back(asked, &file.slice()[..written.len()]));
    }
    round.compare(proved, number, &differences);
}

/// One thing wrong.
fn wrong(draw: &mut Draw, asked: &mut Tables, size: usize) {
    let cells = asked.factors.len().min(asked.nodes.saturating_mul(asked.constraints));
    match draw.below(10) {
        0 => asked.nodes = draw.pick(&WRONG_NODES),
        1 => asked.constraints = draw.pick(&WRONG_CONSTRAINTS),
        2 => asked.limits.truncate(short(asked.constraints.min(asked.limits.len()))),
        3 => asked.factors.truncate(short(cells)),
        4 => spoil(draw, &mut asked.limits, asked.constraints, &WRONG_LIMITS),
        5 => spoil(draw, &mut asked.factors, cells, &WRONG_FACTORS),
        6 => asked.room = size - 1,
        7 => asked.room = draw.below(size as u64) as usize,
        8 => asked.form = 0,
        _ => asked.room = size + draw.below(9) as usize,
    }
}

pub fn write(round: &mut Round) {
    let size = draw::size(&mut round.draw, round.number);
    let grid = draw::grid(&mut round.draw, size);
    for call in 0..calls(size, 24).max(8) {
        let form = round.draw.form_for(size.nodes);
        let bytes = grid::size(form, size.nodes, size.constraints) as usize;
        let limits = table(&mut round.draw, &grid.limits, |limit| limit as u64, u64::MAX);
        let factors = table(&mut round.draw, &grid.factor_cells(), |factor| factor as i64, i64::MIN);
        let (nodes, constraints) = (size.nodes as usize, size.constraints as usize);
        let mut asked = Tables { form: round.draw.told(form), nodes, constraints, limits, factors, room: bytes };
        for _ in 0..if call == 0 { 0 } else { round.draw.within(1, 3) } {
            wrong(&mut round.draw, &mut asked, bytes);
        }
        write_call(round, &asked);
    }
}
