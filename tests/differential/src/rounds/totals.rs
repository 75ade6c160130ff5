//! Running totals of flows: books added to them, and blocks judged.

use super::test::{tables, wrong, Tables};
use super::*;
use crate::draw;
use crate::lent::Lent;
use crate::library;
use crate::second::book;
use crate::second::totals::{add_flows, judge_flows, Added, Block, MAX_FLOW, MAX_SUMMED};
use crate::tally::Round;

pub mod slices;

const MOST: usize = MAX_SUMMED as usize;

pub const ADDED: [&str; 5] = ["first", "the most counted", "one too many", "a flow at its bound", "a flow beyond"];
pub const JUDGED: [&str; 4] = ["pass", "fail", "a flow at its limit", "a flow at its bound"];

/// Totals as they are handed in.
#[derive(Clone, Default)]
pub struct Totals {
    pub flows: Vec<i64>,
    pub count: usize,
}

/// So many cells that can be totals, often at their bound, and some cells more that are not looked at.
fn totals(draw: &mut Draw, cells: usize) -> Totals {
    let few = draw.below(5) as usize;
    let count = draw.pick(&[0, few, 1_000, MOST - 1_000, MOST - few, MOST]);
    let bound = MAX_FLOW * count as i128;
    let flows: Vec<i128> = (0..cells).map(|_| draw.within(-bound, bound)).collect();
    let flows = flows.into_iter().map(|flow| if draw.once_in(4) { bound * flow.signum() } else { flow }).collect::<Vec<_>>();
    Totals { flows: table(draw, &flows, |flow| flow as i64, i64::MIN), count }
}

/// Cells that are no totals of the first so many.
fn no_totals(draw: &mut Draw, held: &mut Totals, cells: usize) {
    let bound = (MAX_FLOW * held.count.min(MOST) as i128) as i64;
    match draw.below(3) {
        0 => held.count = draw.pick(&[MOST + 1, MOST + 1_000, 1 << 32, 1 << 63, usize::MAX]),
        1 => held.flows.truncate(short(cells)),
        _ => spoil(draw, &mut held.flows, cells, &[bound + 1, -bound - 1, i64::MIN, i64::MAX]),
    }
}

/// One call; gives the answer, and the totals at exit.
fn add_call(round: &mut Round, asked: &Tables, held: &Totals) -> (u64, Totals) {
    let second = add_flows(&asked.asked(), &held.flows, held.count);
    let Tables { nodes, constraints, period, limits, factors, book, .. } = asked;
    let mut flows = Lent::<i64>::holding(&mut round.draw, "flows", &held.flows);
    let mut count = Lent::<usize>::holding(&mut round.draw, "count", &[held.count]);
    let mut counted = Lent::<usize>::new(&mut round.draw, "counted", 1);
    let lent = (flows.slice(), count.figure(), counted.figure());
    let proved = library::add_flows(*nodes, *constraints, *period, limits, factors, book, lent.0, lent.1, lent.2);
    let (number, cells, figures) = match second {
        Ok(Added { flows, count, counted }) => (0, flows, [vec![count], vec![counted]]),
        Err(number) => (number, Vec::new(), [Vec::new(), Vec::new()]),
    };
    round.compare(proved, number, &[flows.difference(&cells), count.difference(&figures[0]), counted.difference(&figures[1])]);
    (proved, Totals { flows: flows.slice().to_vec(), count: *count.figure() })
}

/// One call on a book in range, and what its totals show; gives them at exit.
fn added(round: &mut Round, asked: &Tables, held: &Totals) -> Totals {
    let (answer, exit) = add_call(round, asked, held);
    let bound = MAX_FLOW * held.count as i128;
    let most = held.flows.iter().take(asked.constraints).map(|&flow| i128::from(flow).abs()).max();
    let shown = [
        held.count == 0,
        answer == 0 && exit.count == MOST,
        answer == 10 && held.count <= MOST && most <= Some(bound),
        answer == 0 && held.count > 0 && most == Some(bound),
        answer == 10 && held.count <= MOST && most > Some(bound),
    ];
    round.shown(&names(&ADDED, shown));
    exit
}

/// Books of both forms and periods, in a row on the same totals; then faults, of the tables, the totals and the file.
pub fn add(round: &mut Round) {
    let size = draw::size(&mut round.draw, round.number);
    let form = round.draw.form_of(round.number);
    let grid = draw::grid(&mut round.draw, size);
    let book = draw::book(&mut round.draw, size, form);
    let file = book::file_of(form, &book);
    round.shown(&forms::book(form, size.nodes, &book));
    let cells = grid.limits.len();
    let mut held = totals(&mut round.draw, cells);
    for period in [0, 1, 1] {
        let asked = tables(&mut round.draw, &grid, &file, 0, period);
        held = added(round, &asked, &held);
    }
    let period = round.draw.below(2);
    let valid = tables(&mut round.draw, &grid, &file, 0, period);
    for fault in 0..20 {
        let (mut asked, mut held) = (valid.clone(), totals(&mut round.draw, cells));
        if fault % 2 == 0 {
            wrong(&mut round.draw, &mut asked, size, form, &book);
            asked.process = 0;
        }
        if fault % 3 > 0 {
            no_totals(&mut round.draw, &mut held, cells);
        }
        added(round, &asked, &held);
    }
    let mut files = damaged(&mut round.draw, &valid.book, 16);
    files.extend(super::book::too_many(&mut round.draw));
    for book in files {
        let held = totals(&mut round.draw, cells);
        add_call(round, &Tables { book, ..valid.clone() }, &held);
    }
}

/// What is judged.
#[derive(Clone)]
struct Judged {
    constraints: usize,
    process: u64,
    limits: Vec<u64>,
    held: Totals,
}

/// One call; gives the second implementation's answer.
fn judge_call(round: &mut Round, judged: &Judged) -> Answer<[i128; 4]> {
    let Judged { constraints, process, limits, held: Totals { flows, count: summed } } = judged;
    let second = judge_flows(&Block { constraints: *constraints, process: *process, limits, flows, summed: *summed });
    let mut set = Lent::<u64>::new(&mut round.draw, "set", 1);
    let mut count = Lent::<usize>::new(&mut round.draw, "count", 1);
    let mut lowest = Lent::<usize>::new(&mut round.draw, "lowest", 1);
    let mut excess = Lent::<i64>::new(&mut round.draw, "excess", 1);
    let lent = (set.figure(), count.figure(), lowest.figure(), excess.figure());
    let proved = library::judge_flows(*constraints, *process, limits, flows, *summed, lent.0, lent.1, lent.2, lent.3);
    let figures: Vec<Vec<i128>> = match &second {
        Ok(figures) => figures.iter().map(|&figure| vec![figure]).collect(),
        Err(_) => vec![Vec::new(); 4],
    };
    let differences =
        [set.difference(&figures[0]), count.difference(&figures[1]), lowest.difference(&figures[2]), excess.difference(&figures[3])];
    round.compare(proved, second.err().unwrap_or(0), &differences);
    second
}

/// Flows at the released limit, one less and one more, where so many contracts can make them.
fn near(draw: &mut Draw, judged: &mut Judged) {
    let bound = (MAX_FLOW * judged.held.count as i128) as i64;
    let share = [65, 60, 100][judged.process as usize] * 1_000;
    for (flow, &limit) in judged.held.flows.iter_mut().zip(&judged.limits).take(judged.constraints) {
        let released = limit as i64 * share;
        *flow = (released + draw.within(-1, 1) as i64).clamp(-bound, bound);
    }
}

/// What totals in range show.
fn judged(round: &mut Round, valid: &Judged, fails: bool) {
    let Judged { constraints, process, limits, held } = valid;
    let (bound, share) = (MAX_FLOW * held.count as i128, [65, 60, 100][*process as usize] * 1_000);
    let flows = || held.flows.iter().take(*constraints).map(|&flow| i128::from(flow));
    let at_limit = flows().zip(limits).any(|(flow, &limit)| flow == i128::from(limit) * share);
    let at_bound = held.count > 0 && flows().any(|flow| flow.abs() == bound);
    round.shown(&names(&JUDGED, [!fails, fails, !fails && at_limit, at_bound]));
}

/// One thing wrong.
fn misjudged(draw: &mut Draw, judged: &mut Judged) {
    let cells = judged.constraints;
    match draw.below(6) {
        0 => judged.constraints = draw.pick(&WRONG_CONSTRAINTS),
        1 => judged.process = draw.pick(&WRONG_PROCESSES),
        2 => judged.limits.truncate(short(cells)),
        3 => spoil(draw, &mut judged.limits, cells, &WRONG_LIMITS),
        _ => no_totals(draw, &mut judged.held, cells),
    }
}

/// Totals of every size in each process, at their limits too; then faults, alone and together.
pub fn judge(round: &mut Round) {
    let constraints = draw::size(&mut round.draw, round.number).constraints;
    let grid = draw::grid(&mut round.draw, draw::Size { nodes: 1, constraints, contracts: 0 });
    let cells = constraints as usize;
    for process in 0..3 {
        let limits = table(&mut round.draw, &grid.limits, |limit| limit as u64, u64::MAX);
        let mut valid = Judged { constraints: cells, process, limits, held: totals(&mut round.draw, cells) };
        for tight in [false, true] {
            if tight {
                near(&mut round.draw, &mut valid);
            }
            let answer = judge_call(round, &valid);
            judged(round, &valid, answer.is_ok_and(|figures| figures[0] > 0));
        }
        for _ in 0..6 {
            let mut spoiled = valid.clone();
            for _ in 0..round.draw.within(1, 3) {
                misjudged(&mut round.draw, &mut spoiled);
            }
            let _ = judge_call(round, &spoiled);
        }
    }
}
