//! Hours drawn for the sets of constraints that price a contract: shares that are 0, that cancel, that no option is paid, and the last of 64 constraints.

use super::names;
use crate::draw::{self, Draw, Size};
use crate::second::book::Contract;
use crate::second::grid::Grid;
use crate::second::settlement::{priced, share};
use crate::second::Form;

/// What contracts of the hour's period show.
pub const CASES: [&str; 10] = [
    "price 0",
    "equal factors",
    "option not paid",
    "shares cancel",
    "no constraint",
    "constraint 63 in the set",
    "constraint 63 alone",
    "all 64",
    "obligation of equal ends",
    "option of equal ends",
];

/// What prices the contracts: shares that are often 0 and often cancel, the last constraint alone, or every constraint.
#[derive(Clone, Copy)]
enum Style {
    Mixed,
    Last,
    All,
}

impl Style {
    fn price(self, draw: &mut Draw, last: bool) -> i128 {
        match self {
            Style::Mixed => draw.pick(&[0, 1_000, 1_000]),
            Style::Last if !last => 0,
            Style::Last | Style::All => draw.within(1, 500_000),
        }
    }

    /// Few figures where shares are to cancel; otherwise no two nodes have the same.
    fn factor(self, draw: &mut Draw, node: i128) -> i128 {
        match self {
            Style::Mixed => draw.pick(&[-25_000, 0, 0, 25_000]),
            Style::Last | Style::All => 20_000 * node + draw.within(-9_999, 9_999),
        }
    }
}

pub struct Priced {
    pub grid: Grid,
    pub prices: Vec<i128>,
    pub book: Vec<Contract>,
}

impl Priced {
    pub fn new(draw: &mut Draw) -> Self {
        let size = Size { nodes: draw.within(2, 4), constraints: draw.pick(&[1, 2, 3, 63, 64]), contracts: draw.within(0, 8) };
        let (mut grid, book) = (draw::grid(draw, size), draw::book(draw, size, Form::Narrow));
        let style = draw.pick(&[Style::Mixed, Style::Last, Style::All]);
        let prices = (1..=size.constraints).map(|k| style.price(draw, k == size.constraints)).collect();
        for (node, factors) in (0..).zip(&mut grid.factors) {
            factors.iter_mut().for_each(|factor| *factor = style.factor(draw, node));
        }
        Priced { grid, prices, book }
    }
}

/// What a contract shows.
fn shows(grid: &Grid, prices: &[i128], contract: &Contract) -> [bool; CASES.len()] {
    let set = priced(grid, prices, contract);
    let same = contract.source == contract.sink;
    let differ = |k: usize| grid.factors[contract.source as usize][k] != grid.factors[contract.sink as usize][k];
    let spread: i128 = (0..prices.len()).map(|k| share(grid, prices, contract, k)).sum();
    [
        (0..prices.len()).any(|k| prices[k] == 0 && differ(k)),
        !same && (0..prices.len()).any(|k| prices[k] != 0 && !differ(k)),
        contract.kind == 1 && spread < 0,
        !set.is_empty() && spread == 0,
        !same && set.is_empty(),
        set.contains(&63),
        set == [63],
        set.len() == 64,
        same && contract.kind == 0,
        same && contract.kind == 1,
    ]
}

/// The cases that some of the contracts show.
pub fn cases(grid: &Grid, prices: &[i128], contracts: &[Contract]) -> Vec<&'static str> {
    let shown: Vec<[bool; CASES.len()]> = contracts.iter().map(|contract| shows(grid, prices, contract)).collect();
    names(&CASES, std::array::from_fn(|case| shown.iter().any(|own| own[case])))
}
