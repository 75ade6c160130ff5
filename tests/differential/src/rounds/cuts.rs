//! Finding the least cuts: books that fail by what a contract can take away, more or less.

use super::test::{tables, wrong, Tables};
use super::*;
use crate::draw::{self, Size, EXTREMES};
use crate::lent::Lent;
use crate::library;
use crate::second::book::{self, Contract};
use crate::second::cuts::{placed, Row, Tested};
use crate::second::grid::Grid;
use crate::second::test::{excess, flow, of_period, RELEASED};
use crate::tally::Round;

/// What books, their rows and the places for them show.
pub const CASES: [&str; 18] = [
    "the book passes",
    "it fails and no contract is listed",
    "all of a quantity is cut",
    "a larger cut does not clear",
    "clearing the overloads makes another",
    "the cut is that of a higher overload",
    "equal cuts",
    "a higher number first",
    "an option listed",
    "an option listed that no obligation would be",
    "a cut rounded up",
    "contracts of the other period before one listed",
    "equal ends in a failing book",
    "1,000 rows",
    "found by trying too",
    "fewer cells than contracts are enough",
    "9 for the numbers alone",
    "9 for the cuts alone",
];

/// So much of the quantities is tried one by one.
const TRIED: i128 = 400;

/// The extremes, and two rounds more: 1,000 rows, and the largest excess.
const ALL_LISTED: u64 = EXTREMES.len() as u64;
const LARGEST_EXCESS: u64 = ALL_LISTED + 1;
pub const FIRST_ROUNDS: u64 = LARGEST_EXCESS + 1;

/// The second implementation's rows. Where it can be tried, both of its ways must give the same; elsewhere some rows are tried.
fn known(round: &mut Round, asked: &Tables) -> Answer<Vec<Row>> {
    let tested = Tested::new(&asked.asked())?;
    let rows = tested.by_halving();
    let all: i128 = of_period(&tested.book, tested.period).iter().map(|contract| contract.quantity).sum();
    if all <= TRIED {
        round.same(tested.by_trying() == rows, "cuts by trying and by halving");
        round.shown(&CASES[14..15]);
    } else if !tested.book.is_empty() {
        let holds = sampled(&mut round.draw, &tested, &rows);
        round.same(holds, "cuts tried and by halving");
    }
    round.shown(&shown(&tested, &rows));
    Ok(rows)
}

/// A row drawn clears the book, and nothing smaller tried does; a contract drawn that has none is not cleared by what is tried.
fn sampled(draw: &mut Draw, tested: &Tested, rows: &[Row]) -> bool {
    let number = draw.below(tested.book.len() as u64) as usize;
    let quantity = tested.book[number].quantity;
    let failing = !tested.over().is_empty();
    let listed = rows.iter().any(|row| row.number == number as i128);
    let none = !failing || listed || [1, quantity, draw.within(1, quantity)].iter().all(|&cut| !tested.clears(number, cut));
    let least = rows.is_empty() || {
        let Row { number, cut } = draw.pick(rows);
        let smaller = [cut - 1, draw.within(0, cut - 1)];
        tested.clears(number as usize, cut) && smaller.iter().all(|&less| !tested.clears(number as usize, less))
    };
    none && least
}

/// What a listed contract shows of cases 2, 3, 5 and 8 to 11.
fn listed(tested: &Tested, over: &[usize], row: &Row) -> [bool; 7] {
    let (number, contract) = (row.number as usize, &tested.book[row.number as usize]);
    let contracts = of_period(&tested.book, tested.period);
    let spread = |k: usize| tested.grid.factors[contract.source as usize][k] - tested.grid.factors[contract.sink as usize][k];
    let left = |k: usize, cut: i128| excess(&tested.grid, tested.process, &contracts, k) - spread(k) * cut;
    let option = contract.kind == 1;
    [
        row.cut == contract.quantity,
        !tested.clears(number, contract.quantity),
        over.len() > 1 && !tested.over_after(number, row.cut - 1).contains(&over[0]),
        option,
        option && (0..tested.grid.limits.len()).any(|k| left(k, row.cut) > 0),
        over.iter().all(|&k| left(k, row.cut) < 0),
        (0..number).any(|before| !tested.is_of_period(before)),
    ]
}

/// What a book and its rows show.
fn shown(tested: &Tested, rows: &[Row]) -> Vec<&'static str> {
    let over = tested.over();
    let fails = !over.is_empty();
    let shows: Vec<[bool; 7]> = rows.iter().take(20).map(|row| listed(tested, &over, row)).collect();
    let any = |case: usize| shows.iter().any(|own| own[case]);
    let flows = tested.flows();
    let absent = |number: &usize| tested.is_of_period(*number) && !rows.iter().any(|row| row.number == *number as i128);
    let other = (0..tested.book.len()).filter(absent).take(20).any(|number| tested.least(number, &over, &flows).is_some());
    let same_ends = of_period(&tested.book, tested.period).iter().any(|contract| contract.source == contract.sink);
    let holds = [
        !fails,
        fails && rows.is_empty(),
        any(0),
        any(1),
        fails && other,
        any(2),
        rows.windows(2).any(|pair| pair[0].cut == pair[1].cut),
        rows.windows(2).any(|pair| pair[0].number > pair[1].number),
        any(3),
        any(4),
        any(5),
        any(6),
        fails && same_ends,
        rows.len() == 1000,
    ];
    (0..holds.len()).filter(|&case| holds[case]).map(|case| CASES[case]).collect()
}

/// One call with so many cells for the numbers and for the cuts.
fn call(round: &mut Round, asked: &Tables, rows: &Answer<Vec<Row>>, room: [usize; 2]) {
    let second = placed(rows, room[0], room[1]);
    let Tables { nodes, constraints, process, period, limits, factors, book } = asked;
    let mut numbers = Lent::<u64>::new(&mut round.draw, "numbers", room[0]);
    let mut cuts = Lent::<u64>::new(&mut round.draw, "cuts", room[1]);
    let mut listed = Lent::<usize>::new(&mut round.draw, "listed", 1);
    let lent = (numbers.slice(), cuts.slice(), listed.figure());
    let proved = library::find_cuts(*nodes, *constraints, *process, *period, limits, factors, book, lent.0, lent.1, lent.2);
    let (number, given, figure) = match second {
        Ok(rows) => (0, rows.clone(), vec![rows.len() as i128]),
        Err(number) => (number, Vec::new(), Vec::new()),
    };
    let [own_numbers, own_cuts] = [|row: &Row| row.number, |row: &Row| row.cut].map(|of| given.iter().map(of).collect::<Vec<i128>>());
    round.compare(proved, number, &[numbers.difference(&own_numbers), cuts.difference(&own_cuts), listed.difference(&figure)]);
    let count = rows.as_ref().map_or(0, Vec::len);
    let enough = !given.is_empty() && room[0].max(room[1]) < book::parse(*nodes as i128, book).map_or(0, |(_, own)| own.len());
    let short = [room[0] < count && count <= room[1], room[1] < count && count <= room[0]];
    for (case, shows) in (15..).zip([enough, short[0], short[1]]) {
        round.shown(if shows { &CASES[case..=case] } else { &[] });
    }
}

/// The greatest flow of a contract on a constraint, as it counts; at least 1.
fn greatest(grid: &Grid, contracts: &[Contract], constraint: usize) -> i128 {
    contracts.iter().map(|own| flow(grid, &[*own], constraint)).max().unwrap_or(0).max(1)
}

/// Limits below the flow by no more than one contract carries at a few constraints, at or near it at some, and above it at the others.
fn failing(draw: &mut Draw, grid: &mut Grid, book: &[Contract], process: u64, period: u64) {
    let share = RELEASED[process as usize] * 1000;
    let contracts = of_period(book, period);
    let flows: Vec<i128> = (0..grid.limits.len()).map(|k| flow(grid, &contracts, k)).collect();
    let loaded: Vec<usize> = (0..flows.len()).filter(|&k| flows[k] > 0).collect();
    let picks = if loaded.is_empty() { 0 } else { draw.pick(&[0, 1, 1, 1, 1, 2, 2, 3]) };
    let over: Vec<usize> = (0..picks).map(|_| draw.pick(&loaded)).collect();
    for (k, &flow) in flows.iter().enumerate() {
        let most = greatest(grid, &contracts, k);
        let limit = if over.contains(&k) {
            (flow - draw.within(1, most.min(flow.max(1)))).div_euclid(share)
        } else if draw.once_in(4 + flows.len() as u64) {
            flow.div_euclid(share) + draw.within(0, 2)
        } else {
            flow.div_euclid(share) + 1 + draw.within(0, 3 * most / share)
        };
        grid.limits[k] = limit.clamp(0, 100_000_000);
    }
}

/// Few figures, so that a contract helps here and hurts there, and small quantities, so that every cut can be tried.
fn small(draw: &mut Draw, grid: &mut Grid, book: &mut [Contract]) {
    for factor in grid.factors.iter_mut().flatten() {
        *factor = draw.pick(&[0, 100_000, -100_000, 50_000, -50_000, 30_000, -70_000, 99_999, 1_000]);
    }
    for contract in book {
        contract.quantity = draw.within(1, 60);
    }
}

/// 1,000 equal contracts on one constraint, half of them options, all on-peak.
fn equal(size: Size, form: Form, limit: i128, factors: [i128; 2], quantity: i128) -> (Size, Form, Grid, Vec<Contract>) {
    let grid = Grid { nodes: 2, constraints: 1, limits: vec![limit], factors: factors.map(|factor| vec![factor]).to_vec() };
    let of = |number: i128| Contract { kind: number % 2, period: 1, holder: 7, source: 0, sink: 1, quantity };
    (Size { nodes: 2, constraints: 1, ..size }, form, grid, (0..1000).map(of).collect())
}

/// A round's size, form, grid and book.
fn inputs(round: &mut Round) -> (Size, Form, Grid, Vec<Contract>) {
    let own = Size { nodes: round.draw.within(2, 4), constraints: round.draw.within(1, 4), contracts: round.draw.within(2, 8) };
    let usual = round.number < FIRST_ROUNDS || round.draw.once_in(8);
    let size = if usual { draw::size(&mut round.draw, round.number) } else { own };
    let form = round.draw.form_of(round.number);
    match round.number {
        ALL_LISTED => return equal(size, form, 9_999, [1_000, 0], 1_000),
        LARGEST_EXCESS => return equal(size, form, 0, [100_000, -100_000], 1_000_000),
        _ => {}
    }
    let (mut grid, mut book) = (draw::grid(&mut round.draw, size), draw::book(&mut round.draw, size, form));
    if book.len() < 20 && !round.draw.once_in(4) {
        small(&mut round.draw, &mut grid, &mut book);
    }
    (size, form, grid, book)
}

/// Both places of as many cells as rows, more, fewer, one of them fewer, none.
fn rooms(draw: &mut Draw, rows: usize) -> [[usize; 2]; 7] {
    let more = rows + draw.below(4) as usize;
    [[rows, rows], [more, rows], [rows, more], [short(rows), rows], [rows, short(rows)], [0, 0], [1000, 1000]]
}

/// One book in both forms, where its ends fit both: the same answers.
fn both_forms(round: &mut Round, asked: &Tables, book: &[Contract]) {
    let answers = [Form::Narrow, Form::Wide].map(|form| {
        let asked = Tables { book: book::file_of(form, book), ..asked.clone() };
        let rows = known(round, &asked);
        call(round, &asked, &rows, [1000, 1000]);
        rows
    });
    round.same(answers[0] == answers[1], "one book in both forms");
}

/// What can go wrong with a valid call, alone and together, and with the book's file.
fn refused(round: &mut Round, size: Size, form: Form, book: &[Contract], valid: &Tables) {
    for _ in 0..20 {
        let mut asked = valid.clone();
        for _ in 0..round.draw.within(1, 3) {
            wrong(&mut round.draw, &mut asked, size, form, book);
        }
        let rows = known(round, &asked);
        let room = if round.draw.once_in(3) { [0, 0] } else { [1000, 1000] };
        call(round, &asked, &rows, room);
    }
    let mut files = damaged(&mut round.draw, &valid.book, 16);
    files.extend(super::book::too_many(&mut round.draw));
    let few = if valid.book.len() > 100 { 40 } else { valid.book.len() };
    files.extend(cuts(&valid.book).take(few).map(<[u8]>::to_vec));
    for book in files {
        let asked = Tables { book, ..valid.clone() };
        let rows = known(round, &asked);
        call(round, &asked, &rows, [1000, 1000]);
    }
}

pub fn round(round: &mut Round) {
    let (size, form, mut grid, book) = inputs(round);
    let file = book::file_of(form, &book);
    round.shown(&forms::book(form, size.nodes, &book));
    for (process, period) in [(0, 0), (0, 1), (1, 0), (1, 1), (2, 0), (2, 1)] {
        if ![ALL_LISTED, LARGEST_EXCESS].contains(&round.number) {
            failing(&mut round.draw, &mut grid, &book, process, period);
        }
        let asked = tables(&mut round.draw, &grid, &file, process, period);
        let rows = known(round, &asked);
        for room in rooms(&mut round.draw, rows.as_ref().map_or(0, Vec::len)) {
            call(round, &asked, &rows, room);
        }
    }
    let (process, period) = (round.draw.below(3), round.draw.below(2));
    failing(&mut round.draw, &mut grid, &book, process, period);
    let valid = tables(&mut round.draw, &grid, &file, process, period);
    let narrow: Vec<Contract> = book.iter().filter(|own| own.source.max(own.sink) < 256).copied().collect();
    both_forms(round, &valid, &narrow);
    refused(round, size, form, &book, &valid);
}
