//! Finding what a book can cost: few overloaded constraints and many, sets that cost as much, options that load one constraint and relieve another.

use super::shortfall;
use super::test::{tables, wrong, Tables};
use super::*;
use crate::draw::{self, Size, EXTREMES};
use crate::lent::Lent;
use crate::library;
use crate::second::book::{self, Contract};
use crate::second::exposure::{placed, Exposed, Exposure, FEW, HIGHEST_PRICE};
use crate::second::grid::Grid;
use crate::second::test::{flow, of_period, RELEASED};
use crate::tally::Round;

/// What books, their lists and the places for them show.
pub const CASES: [&str; 21] = [
    "the book passes",
    "no constraint",
    "one overloaded",
    "ten overloaded",
    "eleven overloaded",
    "64 overloaded",
    "few: all of several",
    "few: one of several",
    "few: some of several",
    "few: equal sets",
    "many: all",
    "many: one alone",
    "many: all and one alone equal",
    "many: the least is the most",
    "many: the least is below the most",
    "many: equal largest excesses",
    "parts",
    "every set tried by the definition",
    "every corner tried",
    "every corner of many tried",
    "9 for the prices alone",
];

/// So many factors are added up where lists are tried one after another, and so many now and then.
const TRIED: usize = 40_000;
const TRIED_AT_TIMES: usize = 1_000_000;

/// The extremes, and two rounds more: the largest figures, with ten constraints and with 64.
const LARGEST: [(u64, i128); 2] = [(EXTREMES.len() as u64, 10), (EXTREMES.len() as u64 + 1, 64)];
pub const FIRST_ROUNDS: u64 = LARGEST[1].0 + 1;

/// Whether all sets of so many constraints are tried.
fn tried(draw: &mut Draw, exposed: &Exposed, constraints: usize) -> bool {
    let one = exposed.contracts.len() + (exposed.grid.nodes * exposed.grid.constraints) as usize;
    let most = if draw.once_in(16) { TRIED_AT_TIMES } else { TRIED };
    constraints < 16 && one << constraints <= most
}

/// The second implementation's answer. Where it can be tried, both of its ways give the same, and no corner of the box of prices is above it.
fn known(round: &mut Round, asked: &Tables) -> Answer<Exposure> {
    let exposed = Exposed::new(&asked.asked())?;
    let (found, over, all) = (exposed.exposure(), exposed.over(), (0..asked.constraints).collect::<Vec<usize>>());
    if over.len() <= FEW && tried(&mut round.draw, &exposed, over.len()) {
        let [mut one, mut other] = [exposed.by_carrying(&over), exposed.by_lists(&over)];
        one.sort();
        other.sort();
        round.same(one == other, "sets by carrying and by the definition");
        round.shown(&CASES[17..18]);
    }
    if tried(&mut round.draw, &exposed, all.len()) {
        let worst = exposed.by_lists(&all).into_iter().map(|(_, cost)| cost).max();
        round.same(worst.is_some_and(|worst| found.least <= worst && worst <= found.most), "the worst of all corners and the bracket");
        round.shown(&CASES[if over.len() > FEW { 19..20 } else { 18..19 }]);
    }
    round.shown(&shown(&exposed, &over, &found));
    Ok(found)
}

/// What few overloaded constraints show: cases 6 to 9.
fn few(exposed: &Exposed, over: &[usize], found: &Exposure) -> [bool; 4] {
    if over.len() < 2 || over.len() > FEW {
        return [false; 4];
    }
    let drawn = found.prices.iter().filter(|&&price| price > 0).count();
    let equal = || exposed.by_carrying(over).iter().filter(|(_, cost)| *cost == found.least).count() > 1;
    [drawn == over.len(), drawn == 1, 1 < drawn && drawn < over.len(), over.len() < 6 && equal()]
}

/// What many show: cases 10 to 15.
fn many(exposed: &Exposed, over: &[usize], found: &Exposure) -> [bool; 6] {
    if over.len() <= FEW {
        return [false; 6];
    }
    let drawn = found.prices.iter().filter(|&&price| price > 0).count();
    let largest = exposed.largest(over);
    let equal = over.iter().any(|&k| k != largest && exposed.excess(k) == exposed.excess(largest));
    let alone = exposed.at_highest(&[largest]);
    [drawn > 1, drawn == 1, exposed.at_highest(over) == alone, found.least == found.most, found.least < found.most, equal]
}

fn shown(exposed: &Exposed, over: &[usize], found: &Exposure) -> Vec<&'static str> {
    let counted = [over.is_empty(), found.prices.is_empty()];
    let over_are = [1, FEW, FEW + 1, 64].map(|count| over.len() == count);
    let parts = [found.least % 100_000_000 != 0];
    let all = [&counted[..], &over_are, &few(exposed, over, found), &many(exposed, over, found), &parts].concat();
    (0..all.len()).filter(|&case| all[case]).map(|case| CASES[case]).collect()
}

/// One call with so many cells for the prices.
fn call(round: &mut Round, asked: &Tables, found: &Answer<Exposure>, room: usize) {
    let second = placed(found, room);
    let Tables { nodes, constraints, process, period, limits, factors, book } = asked;
    let mut prices = Lent::<u64>::new(&mut round.draw, "prices", room);
    let mut whole = ["least_whole", "most_whole"].map(|name| Lent::<i64>::new(&mut round.draw, name, 1));
    let mut parts = ["least_parts", "most_parts"].map(|name| Lent::<u64>::new(&mut round.draw, name, 1));
    let ([least, most], [least_parts, most_parts]) = (whole.each_mut().map(Lent::figure), parts.each_mut().map(Lent::figure));
    let lent = (prices.slice(), least, least_parts, most, most_parts);
    let proved =
        library::find_exposure(*nodes, *constraints, *process, *period, limits, factors, book, lent.0, lent.1, lent.2, lent.3, lent.4);
    let (number, list, figures) = match &second {
        Ok(found) => (0, found.prices.clone(), found.figures().to_vec()),
        Err(number) => (*number, Vec::new(), Vec::new()),
    };
    let figure = |i: usize| figures.get(i..i + 1).unwrap_or_default();
    let mut differences = vec![prices.difference(&list)];
    differences.extend((0..2).flat_map(|i| [whole[i].difference(figure(2 * i)), parts[i].difference(figure(2 * i + 1))]));
    round.compare(proved, number, &differences);
    round.shown(if number == 9 && found.is_ok() { &CASES[20..21] } else { &[] });
}

/// The proved shortfall at the list written is the least; at lists drawn, and beside the one written, none is above the most.
fn costs(round: &mut Round, asked: &Tables, found: &Exposure) {
    let mut lists: Vec<Vec<i128>> = (0..2).map(|_| draw::prices(&mut round.draw, asked.constraints as i128)).collect();
    lists.push(found.prices.iter().map(|_| round.draw.pick(&[0, HIGHEST_PRICE])).collect());
    if asked.constraints > 0 {
        let mut beside = found.prices.clone();
        let k = round.draw.below(asked.constraints as u64) as usize;
        beside[k] = round.draw.pick(&[1, HIGHEST_PRICE - 1, HIGHEST_PRICE - beside[k]]);
        lists.push(beside);
    }
    round.holds(shortfall::proved(asked, &found.prices) == Ok(found.least), "the list written does not cost the least");
    let within = |list: &Vec<i128>| shortfall::proved(asked, list).is_ok_and(|cost| cost <= found.most);
    round.holds(lists.iter().all(within), "a list costs more than the most");
}

/// Limits below the flow at so many constraints, as far as there are flows: by all of it, by little, by any part or by half.
fn overload(draw: &mut Draw, grid: &mut Grid, book: &[Contract], process: u64, period: u64) {
    let share = RELEASED[process as usize] * 1000;
    let contracts = of_period(book, period);
    let flows: Vec<i128> = (0..grid.limits.len()).map(|k| flow(grid, &contracts, k)).collect();
    let mut over: Vec<usize> = (0..flows.len()).filter(|&k| flows[k] > 0).collect();
    let wanted = draw.pick(&[0, 1, 2, 3, 4, 10, 10, 11, 12, 64]);
    while over.len() > wanted {
        over.swap_remove(draw.below(over.len() as u64) as usize);
    }
    let style = draw.below(4);
    for (k, &flow) in flows.iter().enumerate() {
        let below = match style {
            0 => flow,
            1 => draw.within(1, 3 * share),
            2 => draw.within(1, flow.max(1)),
            _ => (flow / 2).max(1),
        };
        let limit = if over.contains(&k) { (flow - below).div_euclid(share) } else { flow.div_euclid(share) + 1 };
        grid.limits[k] = limit.clamp(0, 100_000_000);
    }
}

/// Few figures, so that sets cost as much as others, and mostly options.
fn simple(draw: &mut Draw, grid: &mut Grid, book: &mut [Contract]) {
    for factor in grid.factors.iter_mut().flatten() {
        *factor = draw.pick(&[0, 100_000, -100_000, 50_000, -50_000]);
    }
    for contract in book {
        contract.kind = i128::from(!draw.once_in(4));
        contract.quantity = draw.pick(&[100, 200, 1_000]);
    }
}

/// A round's inputs, and whether their limits are their own.
struct Case {
    size: Size,
    form: Form,
    grid: Grid,
    book: Vec<Contract>,
    limited: bool,
}

impl Case {
    fn limited(form: Form, grid: Grid, book: Vec<Contract>) -> Self {
        let size = Size { nodes: grid.nodes, constraints: grid.constraints, contracts: book.len() as i128 };
        Case { size, form, grid, book, limited: true }
    }

    /// 1,000 equal contracts of the largest flows there are, half of them options, all on-peak.
    fn largest(form: Form, constraints: i128) -> Self {
        let of_node = |factor: i128| vec![factor; constraints as usize];
        let grid = Grid { nodes: 2, constraints, limits: of_node(0), factors: vec![of_node(100_000), of_node(-100_000)] };
        let of = |number: i128| Contract { kind: number % 2, period: 1, holder: 7, source: 0, sink: 1, quantity: 1_000_000 };
        Self::limited(form, grid, (0..1000).map(of).collect())
    }

    /// Each node but the last loads a constraint of its own. Options from node to node relieve the constraint behind the one that they load, so that sets
    /// of constraints that are not neighbours cost as much; or the first of these options and obligations, where eleven constraints and the first alone do.
    fn ladder(draw: &mut Draw, form: Form) -> Self {
        let constraints = draw.pick(&[2, 3, 4, 5, 10, 11, 11, 12, 13]);
        let of_node = |node: i128| (0..constraints).map(|k| if k == node { 100_000 } else { 0 }).collect();
        let factors = (0..=constraints).map(of_node).collect();
        let options = draw.once_in(2);
        let first = if options { 900 } else { 800 };
        let limits = (0..constraints).map(|k| if k == 0 { first } else { 900 }).collect();
        let of = |node: i128| {
            let (kind, sink) = if options || node == 0 { (1, node + 1) } else { (0, constraints) };
            Contract { kind, period: 1, holder: 7, source: node, sink, quantity: 1_000 }
        };
        Self::limited(form, Grid { nodes: constraints + 1, constraints, limits, factors }, (0..constraints).map(of).collect())
    }

    fn new(round: &mut Round) -> Self {
        let draw = &mut round.draw;
        let form = draw.form_of(round.number);
        if let Some((_, constraints)) = LARGEST.iter().find(|(number, _)| *number == round.number) {
            return Self::largest(form, *constraints);
        }
        let usual = round.number < EXTREMES.len() as u64 || draw.once_in(8);
        if !usual && draw.once_in(12) {
            return Self::ladder(draw, form);
        }
        let constraints = draw.pick(&[1, 2, 2, 3, 3, 4, 5, 12, 13, 24, 40, 64]);
        let own = Size { nodes: draw.within(2, 5), constraints, contracts: draw.within(1, 9) };
        let size = if usual { draw::size(draw, round.number) } else { own };
        let (mut grid, mut book) = (draw::grid(draw, size), draw::book(draw, size, form));
        if book.len() < 20 && draw.once_in(2) {
            simple(draw, &mut grid, &mut book);
        }
        Case { size, form, grid, book, limited: false }
    }
}

/// One book in both forms, where its ends fit both: the same answers.
fn both_forms(round: &mut Round, asked: &Tables, book: &[Contract]) {
    let answers = [Form::Narrow, Form::Wide].map(|form| {
        let asked = Tables { book: book::file_of(form, book), ..asked.clone() };
        let found = known(round, &asked);
        call(round, &asked, &found, 64);
        found
    });
    round.same(answers[0] == answers[1], "one book in both forms");
}

/// What is wrong with tables and book, alone and together, and with the place too.
fn refused(round: &mut Round, size: Size, form: Form, book: &[Contract], valid: &Tables) {
    for _ in 0..20 {
        let mut asked = valid.clone();
        for _ in 0..round.draw.within(1, 3) {
            wrong(&mut round.draw, &mut asked, size, form, book);
        }
        let found = known(round, &asked);
        let room = if round.draw.once_in(3) { 0 } else { 64 };
        call(round, &asked, &found, room);
    }
    let mut files = damaged(&mut round.draw, &valid.book, 16);
    files.extend(super::book::too_many(&mut round.draw));
    let few = if valid.book.len() > 100 { 40 } else { valid.book.len() };
    files.extend(cuts(&valid.book).take(few).map(<[u8]>::to_vec));
    for book in files {
        let asked = Tables { book, ..valid.clone() };
        let found = known(round, &asked);
        call(round, &asked, &found, 64);
    }
}

pub fn round(round: &mut Round) {
    let Case { size, form, mut grid, book, limited } = Case::new(round);
    let file = book::file_of(form, &book);
    round.shown(&forms::book(form, size.nodes, &book));
    for (process, period) in [(0, 0), (0, 1), (1, 0), (1, 1), (2, 0), (2, 1)] {
        if !limited {
            overload(&mut round.draw, &mut grid, &book, process, period);
        }
        let asked = tables(&mut round.draw, &grid, &file, process, period);
        let found = known(round, &asked);
        let cells = grid.limits.len();
        for room in [cells, cells + 1 + round.draw.below(3) as usize, short(cells), 0] {
            call(round, &asked, &found, room);
        }
        if let Ok(found) = &found {
            costs(round, &asked, found);
        }
    }
    let (process, period) = (round.draw.below(3), round.draw.below(2));
    overload(&mut round.draw, &mut grid, &book, process, period);
    let valid = tables(&mut round.draw, &grid, &file, process, period);
    let narrow: Vec<Contract> = book.iter().filter(|own| own.source.max(own.sink) < 256).copied().collect();
    both_forms(round, &valid, &narrow);
    refused(round, size, form, &book, &valid);
}
