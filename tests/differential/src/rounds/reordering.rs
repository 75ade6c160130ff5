//! Reordering and relief (paper 14): books shuffled and written in the other form, limits raised, options put in anywhere. Each call is compared with the
//! second implementation, and what the paper says is held against the library's own answers.

use super::test::tight;
use super::*;
use crate::draw::{self, Size};
use crate::lent::Lent;
use crate::library;
use crate::second::book::{self, Contract};
use crate::second::flows::find_flows;
use crate::second::grid::Grid;
use crate::second::set_of;
use crate::second::settlement::{self, settle};
use crate::second::test::{self, test};
use crate::tally::Round;

/// What was shown.
pub const CASES: [&str; 20] = [
    "another order, narrow",
    "another order, wide",
    "another order in the other form",
    "one contract twice in a reordered book",
    "a reordered book of 1,000 contracts",
    "cents moved to another cell",
    "priced sets moved to another cell",
    "a reordered book that fails",
    "several limits raised",
    "a limit raised to 100,000,000",
    "passes before and after a limit is raised",
    "passes once a limit is raised",
    "fails though a limit is raised",
    "an option in front",
    "an option between contracts",
    "an option behind",
    "an option of the other period",
    "fails with an option more, and would pass with the obligation",
    "fails once an option is added",
    "11 or 13 by the order",
];

/// A call's tables and book.
#[derive(Clone)]
struct Asked {
    nodes: usize,
    constraints: usize,
    process: u64,
    period: u64,
    limits: Vec<u64>,
    factors: Vec<i64>,
    prices: Vec<u64>,
    form: Form,
    book: Vec<Contract>,
}

impl Asked {
    fn file(&self) -> Vec<u8> {
        book::file_of(self.form, &self.book)
    }
}

/// What the library answers: the test's number and figures, the flows with how many contracts were counted, the hour's cells and totals.
#[derive(Clone, PartialEq)]
struct Given {
    number: u64,
    figures: (u64, usize, usize, i64),
    flows: Vec<i64>,
    counted: usize,
    cents: Vec<i64>,
    priced: Vec<u64>,
    totals: (i64, i64, u64),
}

impl Given {
    fn passes(&self) -> bool {
        self.number == 0 && self.figures.0 == 0
    }
}

fn tested(round: &mut Round, asked: &Asked, book: &[u8]) -> (u64, (u64, usize, usize, i64)) {
    let Asked { nodes, constraints, process, period, limits, factors, .. } = asked;
    let (nodes, constraints, process, period) = (*nodes, *constraints, *process, *period);
    let second = test(&test::Asked { nodes, constraints, process, period, limits, factors, book });
    let mut set = Lent::<u64>::new(&mut round.draw, "set", 1);
    let mut count = Lent::<usize>::new(&mut round.draw, "count", 1);
    let mut lowest = Lent::<usize>::new(&mut round.draw, "lowest", 1);
    let mut excess = Lent::<i64>::new(&mut round.draw, "excess", 1);
    let lent = (set.figure(), count.figure(), lowest.figure(), excess.figure());
    let proved = library::test_book(nodes, constraints, process, period, limits, factors, book, lent.0, lent.1, lent.2, lent.3);
    let figures: Vec<Vec<i128>> = match &second {
        Ok(figures) => figures.iter().map(|&figure| vec![figure]).collect(),
        Err(_) => vec![Vec::new(); 4],
    };
    let differences =
        [set.difference(&figures[0]), count.difference(&figures[1]), lowest.difference(&figures[2]), excess.difference(&figures[3])];
    round.compare(proved, second.err().unwrap_or(0), &differences);
    (proved, (*set.figure(), *count.figure(), *lowest.figure(), *excess.figure()))
}

fn flowing(round: &mut Round, asked: &Asked, book: &[u8]) -> (Vec<i64>, usize) {
    let Asked { nodes, constraints, period, limits, factors, .. } = asked;
    let (nodes, constraints, period) = (*nodes, *constraints, *period);
    let second = find_flows(&test::Asked { nodes, constraints, process: 0, period, limits, factors, book }, constraints);
    let mut flows = Lent::<i64>::new(&mut round.draw, "flows", constraints);
    let mut counted = Lent::<usize>::new(&mut round.draw, "counted", 1);
    let proved = library::find_flows(nodes, constraints, period, limits, factors, book, flows.slice(), counted.figure());
    let (number, cells, figure) = match second {
        Ok(found) => (0, found.flows, vec![found.counted]),
        Err(number) => (number, Vec::new(), Vec::new()),
    };
    round.compare(proved, number, &[flows.difference(&cells), counted.difference(&figure)]);
    (flows.slice().to_vec(), *counted.figure())
}

fn settled(round: &mut Round, asked: &Asked, book: &[u8]) -> (Vec<i64>, Vec<u64>, (i64, i64, u64)) {
    let Asked { nodes, constraints, period, factors, prices, .. } = asked;
    let (nodes, constraints, period, room) = (*nodes, *constraints, *period, asked.book.len());
    let second = settle(&settlement::Asked { nodes, constraints, period, factors, prices, book }, room, room);
    let mut cents = Lent::<i64>::new(&mut round.draw, "cents", room);
    let mut priced = Lent::<u64>::new(&mut round.draw, "priced", room);
    let (mut sum, mut whole) = (Lent::<i64>::new(&mut round.draw, "sum", 1), Lent::<i64>::new(&mut round.draw, "whole", 1));
    let mut parts = Lent::<u64>::new(&mut round.draw, "parts", 1);
    let (own, lent) = ((cents.slice(), priced.slice()), (sum.figure(), whole.figure(), parts.figure()));
    let proved = library::settle_hour(nodes, constraints, period, factors, prices, book, own.0, own.1, lent.0, lent.1, lent.2);
    let (number, cells, sets, figures) = match second {
        Ok(hour) => {
            let sets = hour.priced.iter().map(|own| set_of(own)).collect();
            (0, hour.cents, sets, [vec![hour.sum], vec![hour.whole], vec![hour.parts]])
        }
        Err(number) => (number, Vec::new(), Vec::new(), Default::default()),
    };
    let differences = [
        cents.difference(&cells),
        priced.difference(&sets),
        sum.difference(&figures[0]),
        whole.difference(&figures[1]),
        parts.difference(&figures[2]),
    ];
    round.compare(proved, number, &differences);
    (cents.slice().to_vec(), priced.slice().to_vec(), (*sum.figure(), *whole.figure(), *parts.figure()))
}

/// All three calls.
fn given(round: &mut Round, asked: &Asked) -> Given {
    let file = asked.file();
    let (number, figures) = tested(round, asked, &file);
    let (flows, counted) = flowing(round, asked, &file);
    let (cents, priced, totals) = settled(round, asked, &file);
    Given { number, figures, flows, counted, cents, priced, totals }
}

fn show(round: &mut Round, shown: &[(usize, bool)]) {
    for &(case, shows) in shown {
        round.shown(if shows { &CASES[case..=case] } else { &[] });
    }
}

/// The numbers below `count` in any order.
pub fn order(draw: &mut Draw, count: usize) -> Vec<usize> {
    let mut order: Vec<usize> = (0..count).collect();
    for last in (1..count).rev() {
        order.swap(last, draw.below(last as u64 + 1) as usize);
    }
    order
}

/// Whether each contract of one book has, wherever it stands in the other, the same cell there.
fn moved<T: PartialEq>(own: (&[Contract], &[T]), other: (&[Contract], &[T])) -> bool {
    let pairs = own.0.iter().zip(own.1).take(40);
    pairs.into_iter().all(|(contract, cell)| other.0.iter().zip(other.1).all(|(another, there)| contract != another || cell == there))
}

/// "any reordering of the contracts keeps flows, overload set, sum and exact total, with each contract's cents moving with it", in either form.
fn reordered(round: &mut Round, asked: &Asked, own: &Given) {
    let order = order(&mut round.draw, asked.book.len());
    let book: Vec<Contract> = order.iter().map(|&place| asked.book[place]).collect();
    let fits = book.iter().all(|row| row.source.max(row.sink) < 256);
    let form = if fits && round.draw.once_in(2) { round.draw.form() } else { asked.form };
    let other = given(round, &Asked { form, book: book.clone(), ..asked.clone() });
    let figures = other.figures == own.figures && other.number == own.number;
    round.holds(figures, "in another order the book has another verdict, overload set or excess");
    round.holds(other.flows == own.flows && other.counted == own.counted, "in another order the book has other flows");
    round.holds(other.totals == own.totals, "in another order the book has another sum or exact total");
    let cents: Vec<i64> = order.iter().map(|&place| own.cents[place]).collect();
    let priced: Vec<u64> = order.iter().map(|&place| own.priced[place]).collect();
    round.holds(other.cents == cents && other.priced == priced, "a cell did not move with its contract");
    let every = moved((&asked.book, &own.cents), (&book, &other.cents)) && moved((&asked.book, &own.priced), (&book, &other.priced));
    round.holds(every, "equal contracts have other cells");
    let another = book != asked.book;
    let twice = book.iter().take(40).enumerate().any(|(i, row)| book[..i].contains(row));
    show(
        round,
        &[
            (0, another && form == Form::Narrow),
            (1, another && form == Form::Wide),
            (2, another && form != asked.form),
            (3, another && twice),
            (4, another && book.len() == 1000),
            (5, other.cents != own.cents),
            (6, other.priced != own.priced),
            (7, another && !own.passes()),
        ],
    );
}

/// "Raising any limit never turns a pass into a failure."
fn raised(round: &mut Round, asked: &Asked, own: &Given) {
    let mut limits = asked.limits.clone();
    let all = round.draw.once_in(3);
    for limit in &mut limits {
        if all || round.draw.once_in(3) {
            let more = round.draw.pick(&[1, 1, 2, 1_000, 10_000_000, 100_000_000]);
            *limit = (*limit + more).min(100_000_000);
        }
    }
    let changed = limits.iter().zip(&asked.limits).filter(|(new, old)| new != old).count();
    let most = limits.iter().zip(&asked.limits).any(|(&new, &old)| new > old && new == 100_000_000);
    let other = given(round, &Asked { limits, ..asked.clone() });
    round.holds(other.passes() || !own.passes(), "a raised limit turned a pass into a failure");
    round.holds(other.figures.0 & !own.figures.0 == 0, "a raised limit overloaded a constraint");
    show(
        round,
        &[
            (8, changed > 1),
            (9, most),
            (10, changed > 0 && own.passes() && other.passes()),
            (11, !own.passes() && other.passes()),
            (12, changed > 0 && !own.passes() && !other.passes()),
        ],
    );
}

/// A limit of one too many draws 6, and nothing is claimed.
fn past_the_range(round: &mut Round, asked: &Asked) {
    let mut asked = asked.clone();
    if let Some(limit) = asked.limits.last_mut() {
        *limit = 100_000_001;
        let file = asked.file();
        let _ = tested(round, &asked, &file);
    }
}

/// "Adding an option never turns a failure into a pass."
fn with_option(round: &mut Round, asked: &Asked, size: Size, own: &Given) {
    let option = Contract { kind: 1, ..draw::book(&mut round.draw, Size { contracts: 1, ..size }, asked.form)[0] };
    let place = round.draw.below(asked.book.len() as u64 + 1) as usize;
    let with = |contract: Contract| {
        let mut book = asked.book.clone();
        book.insert(place, contract);
        Asked { book, ..asked.clone() }
    };
    let more = with(option);
    if more.book.len() > 1000 {
        let file = more.file();
        let _ = tested(round, &more, &file);
        return;
    }
    let other = given(round, &more);
    round.holds(own.passes() || !other.passes(), "an option more turned a failure into a pass");
    round.holds(own.figures.0 & !other.figures.0 == 0, "with an option more a constraint is no longer overloaded");
    round.holds(own.flows.iter().zip(&other.flows).all(|(own, more)| own <= more), "with an option more a flow is smaller");
    let file = with(Contract { kind: 0, ..option }).file();
    let relieved = tested(round, &with(Contract { kind: 0, ..option }), &file);
    let count = asked.book.len();
    show(
        round,
        &[
            (13, place == 0 && count > 0),
            (14, place > 0 && place < count),
            (15, place == count && count > 0),
            (16, option.period != asked.period as i128),
            (17, !own.passes() && !other.passes() && relieved == (0, (0, 0, 0, 0))),
            (18, own.passes() && !other.passes()),
        ],
    );
}

/// Of a book that is not accepted the first bad contract decides: compared, and nothing is claimed.
fn not_accepted(round: &mut Round, asked: &Asked) {
    let [bad_end, bad_quantity] =
        [(asked.nodes as i128, 1), (0, 0)].map(|(source, quantity)| Contract { kind: 0, period: 1, holder: 7, source, sink: 0, quantity });
    if asked.form == Form::Narrow && asked.nodes > 255 {
        return;
    }
    let numbers = [[bad_end, bad_quantity], [bad_quantity, bad_end]].map(|book| {
        let asked = Asked { book: book.to_vec(), ..asked.clone() };
        let file = asked.file();
        tested(round, &asked, &file).0
    });
    show(round, &[(19, numbers == [11, 13])]);
}

/// A book with some contracts more than once.
fn drawn_book(draw: &mut Draw, size: Size, form: Form) -> Vec<Contract> {
    let mut book = draw::book(draw, size, form);
    for place in 1..book.len() {
        if draw.once_in(6) {
            book[place] = book[draw.below(place as u64) as usize];
        }
    }
    book
}

/// Often limits near the flows, so that a limit by one or an option decides.
fn drawn(round: &mut Round, size: Size, process: u64, period: u64) -> Asked {
    let draw = &mut round.draw;
    let form = draw.form_of(round.number);
    let mut grid: Grid = draw::grid(draw, size);
    let book = drawn_book(draw, size, form);
    if !draw.once_in(4) {
        tight(draw, &mut grid, &book, process, period);
    }
    let cell = |figures: &[i128]| figures.iter().map(|&figure| figure as u64).collect::<Vec<u64>>();
    let prices = draw::prices(draw, size.constraints);
    let factors = grid.factor_cells().iter().map(|&factor| factor as i64).collect();
    let (nodes, constraints) = (grid.nodes as usize, grid.constraints as usize);
    Asked { nodes, constraints, process, period, limits: cell(&grid.limits), factors, prices: cell(&prices), form, book }
}

pub fn round(round: &mut Round) {
    let size = draw::size(&mut round.draw, round.number);
    let size = Size { constraints: if size.nodes > 300 { size.constraints.min(2) } else { size.constraints }, ..size };
    let (process, period) = (round.draw.below(3), round.draw.below(2));
    let asked = drawn(round, size, process, period);
    let own = given(round, &asked);
    for _ in 0..3 {
        reordered(round, &asked, &own);
        raised(round, &asked, &own);
        with_option(round, &asked, size, &own);
    }
    past_the_range(round, &asked);
    not_accepted(round, &asked);
}
