//! A case cut at random: blocks of constraints in any grouping, slices of contracts in any order, each slice's nodes renumbered. The blocks' verdicts
//! together are the whole's, which test_book gives where one call takes the case.

use super::super::reordering::order;
use super::super::test::{self, tight, Tables};
use super::super::{names, Draw, Form};
use super::{add_call, judge_call, Judged, Totals};
use crate::draw::{self, Size};
use crate::second::book::{self, largest_end, Contract};
use crate::second::grid::Grid;
use crate::second::set_of;
use crate::second::test::{excess, figures, of_period};
use crate::tally::Round;

pub const CASES: [&str; 11] = [
    "a pass",
    "a fail",
    "blocks that differ",
    "a block in another order",
    "a block of none",
    "a slice of none",
    "other numbers",
    "a node of none",
    "a narrow book",
    "a wide book",
    "beyond one call",
];

/// Sizes beyond one call, of the first rounds: of constraints, of contracts, of nodes, of all.
const BEYOND: [Size; 4] = [
    Size { nodes: 20, constraints: 100, contracts: 30 },
    Size { nodes: 5, constraints: 2, contracts: 1_200 },
    Size { nodes: 5_000, constraints: 3, contracts: 40 },
    Size { nodes: 4_100, constraints: 66, contracts: 1_050 },
];
pub const FIRST_ROUNDS: u64 = BEYOND.len() as u64;

fn in_one_call(size: Size) -> bool {
    size.nodes <= 4_000 && size.constraints <= 64 && size.contracts <= 1_000
}

/// The numbers below `count`, each in one part of at most so many; some parts may have none.
fn parted(draw: &mut Draw, count: usize, most: usize) -> Vec<Vec<usize>> {
    let parts = (count.div_ceil(most) + draw.below(3) as usize).max(1);
    let mut all = vec![Vec::new(); parts];
    for i in order(draw, count) {
        let open: Vec<usize> = (0..parts).filter(|&part| all[part].len() < most).collect();
        let part = draw.pick(&open);
        all[part].push(i);
    }
    all
}

/// A slice's nodes in any order, and one or some that no contract of it names.
fn numbering(draw: &mut Draw, slice: &[Contract], nodes: i128) -> Vec<i128> {
    let mut own: Vec<i128> = slice.iter().flat_map(|contract| [contract.source, contract.sink]).collect();
    own.extend((0..1 + draw.below(2)).map(|_| draw.within(0, nodes - 1)));
    own.sort_unstable();
    own.dedup();
    order(draw, own.len()).into_iter().map(|i| own[i]).collect()
}

struct Case {
    grid: Grid,
    book: Vec<Contract>,
}

impl Case {
    fn new(round: &mut Round) -> Self {
        let draw = &mut round.draw;
        let small = Size { nodes: draw.within(1, 8), constraints: draw.within(0, 6), contracts: draw.within(0, 8) };
        let size = BEYOND.get(round.number as usize).copied().unwrap_or(small);
        let (mut grid, mut book) = (draw::grid(draw, size), draw::book(draw, size, Form::Wide));
        // a drawn book's ends stop at the wide form's largest
        book.iter_mut().for_each(|contract| contract.sink = draw.within(0, size.nodes - 1));
        if draw.once_in(2) {
            let (process, period) = (draw.below(3), draw.below(2));
            tight(draw, &mut grid, &book, process, period);
        }
        round.shown(if in_one_call(size) { &[] } else { &["beyond one call"] });
        Case { grid, book }
    }

    /// The small grid of a block's constraints and a slice's nodes.
    fn small(&self, block: &[usize], nodes: &[i128], period: u64, book: Vec<u8>) -> Tables {
        let limits = block.iter().map(|&k| self.grid.limits[k] as u64).collect();
        let row = |&node: &i128| block.iter().map(move |&k| self.grid.factors[node as usize][k] as i64);
        let factors = nodes.iter().flat_map(row).collect();
        Tables { nodes: nodes.len(), constraints: block.len(), process: 0, period, limits, factors, book }
    }

    /// Adds a slice of the book to a block's totals.
    fn add(&self, round: &mut Round, block: &[usize], slice: &[usize], period: u64, held: &Totals) -> Totals {
        let contracts: Vec<Contract> = slice.iter().map(|&i| self.book[i]).collect();
        let nodes = numbering(&mut round.draw, &contracts, self.grid.nodes);
        let number = |end: i128| nodes.iter().position(|&node| node == end).expect("a node of the slice") as i128;
        let own: Vec<Contract> = contracts.iter().map(|c| Contract { source: number(c.source), sink: number(c.sink), ..*c }).collect();
        let fits = nodes.len() as i128 <= largest_end(Form::Narrow) + 1;
        let form = if fits { round.draw.form() } else { Form::Wide };
        let none = nodes.iter().any(|node| !contracts.iter().any(|c| c.source == *node || c.sink == *node));
        let narrow = form == Form::Narrow;
        let shown = [false, false, false, false, false, slice.is_empty(), own != contracts, none, narrow, !narrow, false];
        round.shown(&names(&CASES, shown));
        add_call(round, &self.small(block, &nodes, period, book::file_of(form, &own)), held).1
    }

    /// The totals of a block, of slices of the whole book.
    fn totals(&self, round: &mut Round, block: &[usize], period: u64) -> Totals {
        let slices = parted(&mut round.draw, self.book.len(), if self.book.len() > 100 { 400 } else { 3 });
        let begun = Totals { flows: vec![0; block.len()], count: 0 };
        slices.iter().fold(begun, |held, slice| self.add(round, block, slice, period, &held))
    }

    /// The overloaded constraints of all blocks, and each block's lowest with its excess, which must be the whole's there.
    fn judged(&self, round: &mut Round, blocks: &[(Vec<usize>, Totals)], process: u64, period: u64) -> (Vec<usize>, Vec<(i128, i128)>) {
        let contracts = of_period(&self.book, period);
        let (mut over, mut excesses) = (Vec::new(), Vec::new());
        for (block, held) in blocks {
            let limits = block.iter().map(|&k| self.grid.limits[k] as u64).collect();
            let answer = judge_call(round, &Judged { constraints: block.len(), process, limits, held: held.clone() });
            let Ok([set, count, lowest, own]) = answer else {
                round.holds(false, "a block's totals are refused");
                continue;
            };
            let named: Vec<usize> = (0..block.len()).filter(|&k| set >> k & 1 == 1).map(|k| block[k]).collect();
            round.holds(named.len() as i128 == count, "a block's count is not its set's");
            if set != 0 {
                let lowest = block[lowest as usize];
                round.holds(own == excess(&self.grid, process, &contracts, lowest), "a block's excess is not the whole's");
                excesses.push((lowest as i128, own));
            }
            over.extend(named);
        }
        over.sort_unstable();
        (over, excesses)
    }
}

/// What the whole's verdict must be: by one call of the library where it takes the case, else by the second implementation.
fn whole(round: &mut Round, case: &Case, process: u64, period: u64) -> [i128; 4] {
    let (nodes, constraints, contracts) = (case.grid.nodes, case.grid.constraints, case.book.len() as i128);
    if in_one_call(Size { nodes, constraints, contracts }) {
        let file = book::file_of(Form::Wide, &case.book);
        let asked = test::tables(&mut round.draw, &case.grid, &file, process, period);
        return test::call(round, &asked).expect("a case in range");
    }
    figures(&case.grid, process, &of_period(&case.book, period))
}

pub fn round(round: &mut Round) {
    let case = Case::new(round);
    let (count, most) = (case.grid.limits.len(), if case.grid.limits.len() > 64 { 64 } else { 3 });
    for period in 0..2 {
        let mut blocks = parted(&mut round.draw, count, most);
        let rising = round.draw.once_in(2);
        if rising {
            blocks.iter_mut().for_each(|block| block.sort_unstable());
        }
        let blocks: Vec<(Vec<usize>, Totals)> =
            blocks.into_iter().map(|block| (block.clone(), case.totals(round, &block, period))).collect();
        for process in 0..3 {
            let (over, excesses) = case.judged(round, &blocks, process, period);
            let [set, counted, lowest, most] = whole(round, &case, process, period);
            let own = [set_of(&over), over.len() as i128, over.first().copied().unwrap_or(0) as i128];
            round.holds(own == [set, counted, lowest], "the blocks together are not the whole");
            let told = excesses.iter().find(|(own, _)| *own == lowest).map(|(_, excess)| *excess);
            round.holds(told.map_or(set == 0 || !rising, |excess| excess == most), "the lowest constraint's excess is not the whole's");
            let fail = |block: &[usize]| block.iter().any(|k| over.contains(k));
            let differ = blocks.iter().any(|(block, _)| fail(block)) && blocks.iter().any(|(block, _)| !block.is_empty() && !fail(block));
            let turned = blocks.iter().any(|(block, _)| block.windows(2).any(|pair| pair[0] > pair[1]));
            let none = blocks.iter().any(|(block, _)| block.is_empty());
            round
                .shown(&names(&CASES, [over.is_empty(), !over.is_empty(), differ, turned, none, false, false, false, false, false, false]));
        }
    }
}
