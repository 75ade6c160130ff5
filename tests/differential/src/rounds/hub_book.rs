//! Adding a contract from a hub to a book: leftover thousandths and ties, empty shares, the sink among the nodes, books that just hold what is added, and
//! numbers about the last of a narrow book.

use super::hubs::{misshape, no_node, Hub, SHAPES};
use super::*;
use crate::draw::{self, ends_below, Size, EXTREMES};
use crate::lent::Lent;
use crate::library;
use crate::second::book::{self, largest_end, record, Contract};
use crate::second::hubs::{self, add, contracts};
use crate::tally::Round;

pub const CASES: [&str; 22] = [
    "1 node",
    "32 nodes",
    "listed out of order",
    "no leftover thousandth",
    "31 leftover thousandths",
    "a tie for the last thousandth",
    "a tie that the list would decide otherwise",
    "a share of 0 left out",
    "the sink among the nodes",
    "quantity 1",
    "quantity 1,000,000",
    "an option",
    "off-peak",
    "an empty book",
    "a book that grows to 1,000",
    "more nodes than there is room for contracts",
    "a book that would grow to 1,001",
    "a node of 255 of a narrow book, over 256 nodes",
    "a node of 256 of a narrow book refused",
    "a sink of 256 of a narrow book refused",
    "a node above 255",
    "node 3,999",
];

/// A book for what is added to it.
struct Own {
    size: Size,
    form: Form,
    book: Vec<Contract>,
}

impl Own {
    /// Nodes and sinks are below this number.
    fn below(&self) -> u64 {
        ends_below(self.form, self.size.nodes) as u64
    }
}

#[derive(Clone)]
struct Asked {
    nodes: usize,
    book: Vec<u8>,
    kind: u64,
    period: u64,
    holder: u64,
    hub: Hub,
    sink: u64,
    quantity: u64,
    room: usize,
}

impl Asked {
    fn second(&self) -> hubs::Asked<'_> {
        let Asked { nodes, book, kind, period, holder, hub, sink, quantity, .. } = self;
        let (nodes, kind, period, holder, sink, quantity) = (*nodes, *kind, *period, *holder, *sink, *quantity);
        hubs::Asked { nodes, book, kind, period, holder, hub: hub.second(), sink, quantity }
    }
}

/// What a node's part of the quantity leaves when it is rounded down, and whether its share is above that.
fn remainders(asked: &Asked) -> Vec<(u64, bool)> {
    let shares = asked.hub.second().shares(asked.quantity.into());
    let of = |(&node, &weight): (&u64, &u64)| {
        let part = asked.quantity * weight;
        (part % 100_000, shares[&node.into()] > i128::from(part / 100_000))
    };
    asked.hub.nodes.iter().zip(&asked.hub.weights).map(of).collect()
}

/// What an accepted call shows.
fn accepted(asked: &Asked, grown: usize) -> [bool; 16] {
    let nodes = &asked.hub.nodes;
    let parts = remainders(asked);
    let given = parts.iter().filter(|(_, more)| *more).count();
    let pairs = || (0..parts.len()).flat_map(|i| (0..i).map(move |j| (j, i)));
    let tie = |(j, i): (usize, usize)| parts[j].0 == parts[i].0 && parts[j].1 != parts[i].1;
    let old = usize::from(asked.book[0]) << 2 | usize::from(asked.book[1] >> 6);
    [
        nodes.len() == 1,
        nodes.len() == 32,
        nodes.windows(2).any(|pair| pair[0] > pair[1]),
        given == 0,
        given == 31,
        pairs().any(tie),
        pairs().any(|(j, i)| tie((j, i)) && parts[i].1),
        grown - old < nodes.len(),
        nodes.contains(&asked.sink) && asked.hub.second().shares(asked.quantity.into())[&asked.sink.into()] > 0,
        asked.quantity == 1,
        asked.quantity == 1_000_000,
        asked.kind == 1,
        asked.period == 0,
        old == 0,
        grown == 1000,
        old + nodes.len() > 1000,
    ]
}

/// The cases that a call shows.
fn cases(asked: &Asked, answer: &Answer<Vec<u8>>) -> Vec<&'static str> {
    let mut shown = [false; CASES.len()];
    let narrow = asked.book.get(1).is_some_and(|low| low % 64 == 0) && asked.nodes > 256;
    let (nodes, sink) = (&asked.hub.nodes, asked.sink);
    match answer {
        Ok(file) => {
            let grown = usize::from(file[0]) << 2 | usize::from(file[1] >> 6);
            shown[..16].copy_from_slice(&accepted(asked, grown));
            shown[17] = narrow && nodes.contains(&255);
            shown[20] = nodes.iter().any(|&node| node > 255);
            shown[21] = nodes.contains(&3999);
        }
        Err(10) => {
            let old = book::parse(asked.nodes as i128, &asked.book).map_or(0, |(_, book)| book.len());
            shown[16] = old > 0 && old + contracts(&asked.second()).len() == 1001;
        }
        Err(11) => {
            let own = book::parse(asked.nodes as i128, &asked.book).is_ok();
            shown[18] = narrow && own && nodes.iter().max() == Some(&256) && sink < 256;
            shown[19] = narrow && own && nodes.iter().all(|&node| node < 256) && sink == 256;
        }
        Err(_) => {}
    }
    names(&CASES, shown)
}

/// Whether the contracts behind the old ones have different nodes of the hub in rising order, add up, and are each less than a thousandth from their part.
fn fair(asked: &Asked, file: &[u8]) -> bool {
    let (Ok((form, old)), Ok((grown_form, grown))) =
        (book::parse(asked.nodes as i128, &asked.book), book::parse(asked.nodes as i128, file))
    else {
        return false;
    };
    let (kept, added) = grown.split_at(old.len());
    let quantity = |node: u64| added.iter().filter(|own| own.source == node.into()).map(|own| own.quantity).sum::<i128>();
    let near = |(&node, &weight): (&u64, &u64)| (quantity(node) * 100_000 - i128::from(asked.quantity * weight)).abs() < 100_000;
    kept == old
        && form == grown_form
        && added.windows(2).all(|pair| pair[0].source < pair[1].source)
        && added.iter().map(|own| own.quantity).sum::<i128>() == asked.quantity.into()
        && asked.hub.nodes.iter().zip(&asked.hub.weights).all(near)
}

/// One call; gives the second implementation's answer.
fn call(round: &mut Round, asked: &Asked) -> Answer<Vec<u8>> {
    let Asked { nodes, book, kind, period, holder, hub, sink, quantity, room } = asked;
    let second = add(&asked.second(), *room);
    let mut file = Lent::<u8>::new(&mut round.draw, "file", *room);
    let mut bytes = Lent::<usize>::new(&mut round.draw, "bytes", 1);
    let lent = (file.slice(), bytes.figure());
    let proved =
        library::add_hub_contract(*nodes, book, *kind, *period, *holder, &hub.nodes, &hub.weights, *sink, *quantity, lent.0, lent.1);
    let (number, written) = written(&second);
    let count = second.as_ref().map(|file| vec![file.len() as i128]).unwrap_or_default();
    let mut differences = vec![file.difference(&written), bytes.difference(&count)];
    if (proved, number) == (0, 0) {
        differences.push(unless(fair(asked, &file.slice()[..written.len()]), "shares that are not fair"));
    }
    round.compare(proved, number, &differences);
    round.shown(&cases(asked, &second));
    second
}

/// Few thousandths for each node, so that many are left over; round figures; the ends of the range; any.
fn quantity(draw: &mut Draw, nodes: usize) -> u64 {
    match draw.below(6) {
        0 => draw.pick(&[1, 1_000_000, 999_999]),
        1 => (nodes as u64 - 1).max(1),
        2 | 3 => 1 + draw.below(3 * nodes as u64),
        4 => draw.pick(&[10, 1_000, 10_000, 100_000]),
        _ => 1 + draw.below(1_000_000),
    }
}

/// A call that is accepted if the book has room for what is added.
fn valid(draw: &mut Draw, own: &Own, file: &[u8]) -> Asked {
    let below = own.below();
    let hub = Hub::new(draw, below);
    let sink = if draw.once_in(3) { draw.pick(&hub.nodes) } else { draw.below(below) };
    let quantity = quantity(draw, hub.nodes.len());
    let (kind, period, holder) = (draw.below(2), draw.below(2), draw.pick(&[0, 7, 512, 1_023]));
    let mut asked = Asked { nodes: own.size.nodes as usize, book: file.to_vec(), kind, period, holder, hub, sink, quantity, room: 0 };
    asked.room = 2 + record(own.form) * (own.book.len() + contracts(&asked.second()).len());
    asked
}

/// What each check behind the book's own refuses, in the order of the checks.
const RUNGS: [u64; 9] = [17, 18, 11, 11, 13, 24, 25, 10, 9];

/// One thing wrong, by the check that it fails; the last is the node count.
fn wrong(draw: &mut Draw, asked: &mut Asked, below: u64, check: usize) {
    let listed = asked.hub.nodes.len();
    match check {
        0 if draw.once_in(2) => asked.kind = draw.pick(&WRONG_PERIODS),
        0 => asked.period = draw.pick(&WRONG_PERIODS),
        1 => asked.holder = draw.pick(&[1024, 1025, 2047, 1 << 32, 1 << 63, u64::MAX]),
        2 if listed > 0 => {
            let far = no_node(draw, below);
            spoil(draw, &mut asked.hub.nodes, listed, &[far]);
        }
        3 => asked.sink = no_node(draw, below),
        4 => asked.quantity = draw.pick(&[0, 1_000_001, 1_048_575, 1 << 32, (1 << 32) + 5, 1 << 63, u64::MAX]),
        5 if asked.hub.sound() => {
            let way = draw.below(SHAPES.len() as u64) as usize;
            misshape(draw, &mut asked.hub, below, way);
        }
        6 if asked.hub.sound() => asked.hub.twice(draw),
        8 => asked.room = draw.pick(&[short(asked.room), 0, 1, asked.room / 2, asked.book.len()]),
        9 => asked.nodes = draw.pick(&WRONG_NODES),
        _ => {}
    }
}

/// A file with a contract that has no such node and quantity 0, or the latter alone; none where an end's field holds no other number.
fn spoiled(own: &Own, far: bool) -> Option<Vec<u8>> {
    let most = largest_end(own.form);
    let mut book = own.book.clone();
    let last = book.last_mut().expect("a full book");
    last.quantity = 0;
    last.sink = if far { most } else { last.sink };
    (!far || most >= own.size.nodes).then(|| book::file_of(own.form, &book))
}

/// Files that fail at each of the book's own checks, and at every later one that can still fail there.
fn wrong_books(draw: &mut Draw, own: &Own, file: &[u8]) -> Vec<(u64, Vec<u8>)> {
    let mut count = file.to_vec();
    (count[0], count[1]) = (0xfa, 0x40 | draw.within(1, 62) as u8);
    let mut spare = grown(draw, file, 1);
    spare[1] = spare[1] & !63 | draw.within(1, 62) as u8;
    let both = spoiled(own, true);
    let long = [both.clone().unwrap_or(file.to_vec()), vec![0]].concat();
    let files =
        [(1, Some(file[..1].to_vec())), (10, Some(count)), (4, Some(spare)), (5, Some(long)), (11, both), (13, spoiled(own, false))];
    files.into_iter().filter_map(|(number, file)| file.map(|file| (number, file))).collect()
}

/// For each check a call that fails at it and at every later one, over a full book.
fn ladder(round: &mut Round, own: &Own, file: &[u8]) {
    let draw = &mut round.draw;
    let mut calls = Vec::new();
    for (rung, &number) in RUNGS.iter().enumerate() {
        let mut asked = Asked { room: 0, ..valid(draw, own, file) };
        if rung > 7 {
            asked.book = book::file_of(own.form, &own.book[..1]);
        }
        if rung < 7 {
            asked.hub.twice(draw);
        }
        if rung < 6 {
            *asked.hub.weights.iter_mut().max().expect("a node") -= 1;
        }
        for check in (rung..5).rev() {
            wrong(draw, &mut asked, own.below(), check);
        }
        calls.push((number, asked));
    }
    let all = calls[0].1.clone();
    let books = wrong_books(draw, own, file);
    calls.push((2, Asked { nodes: draw.pick(&WRONG_NODES), book: books[0].1.clone(), ..all.clone() }));
    calls.extend(books.into_iter().map(|(number, book)| (number, Asked { book, ..all.clone() })));
    for (number, asked) in calls {
        let answer = call(round, &asked);
        round.same(answer == Err(number), "the first check that fails");
    }
}

/// The flows of a period and its exact total, as the library finds them.
fn figures(asked: &Asked, grid: &Grid, book: &[u8]) -> (u64, Vec<i64>, i128) {
    let (mut flows, mut counted) = (vec![0; grid.constraints], 0);
    let flow =
        library::find_flows(asked.nodes, grid.constraints, asked.period, &grid.limits, &grid.factors, book, &mut flows, &mut counted);
    let (mut cents, mut priced, mut figures) = (vec![0; 1000], vec![0; 1000], (0, 0, 0));
    let lent = (&mut figures.0, &mut figures.1, &mut figures.2);
    let (cells, sets) = (&mut cents, &mut priced);
    let paid = library::settle_hour(
        asked.nodes,
        grid.constraints,
        asked.period,
        &grid.factors,
        &grid.prices,
        book,
        cells,
        sets,
        lent.0,
        lent.1,
        lent.2,
    );
    (flow + paid, flows, i128::from(figures.1) * 100_000_000 + i128::from(figures.2))
}

/// A grid's tables and prices.
struct Grid {
    constraints: usize,
    limits: Vec<u64>,
    factors: Vec<i64>,
    prices: Vec<u64>,
}

impl Grid {
    fn new(draw: &mut Draw, size: Size) -> Self {
        let size = Size { constraints: size.constraints.min(4), ..size };
        let grid = draw::grid(draw, size);
        let factors = grid.factor_cells().iter().map(|&factor| factor as i64).collect();
        let prices = draw::prices(draw, size.constraints).iter().map(|&price| price as u64).collect();
        Grid { constraints: size.constraints as usize, limits: grid.limits.iter().map(|&limit| limit as u64).collect(), factors, prices }
    }
}

/// Each flow and the exact total of the grown book are those of the book and of the contracts added. An obligation whose parts are whole thousandths pays what
/// one from the hub's MCC would.
fn adds_up(round: &mut Round, own: &Own, asked: &Asked, grown: &[u8]) {
    let grid = Grid::new(&mut round.draw, own.size);
    let added = book::file_of(own.form, &contracts(&asked.second()));
    let [before, new, after] = [&asked.book[..], &added, grown].map(|book| figures(asked, &grid, book));
    let flows: Vec<i64> = before.1.iter().zip(&new.1).map(|(old, new)| old + new).collect();
    round.same((before.0 + new.0, &flows, before.2 + new.2) == (0, &after.1, after.2), "flows and totals of the book and of what is added");
    if asked.kind == 0 && asked.hub.weights.iter().all(|weight| asked.quantity * weight % 100_000 == 0) {
        let (mut quotient, mut remainder, mut mcc) = (0, 0, vec![0; asked.nodes]);
        let (factors, prices, hub) = (&grid.factors, &grid.prices, &asked.hub);
        let of_all = library::find_mcc(asked.nodes, grid.constraints, factors, prices, &mut mcc);
        let of_hub =
            library::find_hub_mcc(asked.nodes, grid.constraints, factors, prices, &hub.nodes, &hub.weights, &mut quotient, &mut remainder);
        let hub_sum = 100_000 * i128::from(quotient) + i128::from(remainder);
        let at_hub = (100_000 * i128::from(mcc[asked.sink as usize]) - hub_sum) * i128::from(asked.quantity);
        round.same((of_all, of_hub, 100_000 * new.2) == (0, 0, at_hub), "payments by node and at the hub's MCC");
    }
}

/// Mostly what other entries have; often a book that is full or has room for few contracts more.
fn own(round: &mut Round) -> Own {
    let mut size = super::hubs::size(&mut round.draw, round.number);
    let form = round.draw.form_of(round.number);
    if round.number as usize >= EXTREMES.len() && round.draw.once_in(12) {
        let few = round.draw.within(0, 33);
        size.contracts = round.draw.pick(&[1000, 999, 998, 1000 - few, 1000 - few]);
    }
    Own { size, form, book: draw::book(&mut round.draw, size, form) }
}

/// One node, or the sink, at the last number of a narrow book or one beyond, and every other number below.
fn edges(round: &mut Round, valid: &Asked) {
    for end in [255, 256] {
        let asked = Asked { hub: Hub::new(&mut round.draw, 255), sink: round.draw.below(255), room: valid.room + 7 * 32, ..valid.clone() };
        let mut at_end = asked.clone();
        spoil(&mut round.draw, &mut at_end.hub.nodes, asked.hub.nodes.len(), &[end]);
        let _ = call(round, &at_end);
        let _ = call(round, &Asked { sink: end, ..asked });
    }
}

/// Places of all lengths, another order of the list, what the theorems say of the grown book, and quantities one after another.
fn listed(round: &mut Round, own: &Own, asked: &Asked) {
    for room in [asked.room, asked.room + 1, asked.room + 9, asked.room - 1, 0] {
        let _ = call(round, &Asked { room, ..asked.clone() });
    }
    let hub = asked.hub.shuffled(&mut round.draw);
    let answers = [call(round, asked), call(round, &Asked { hub, ..asked.clone() })];
    round.same(answers[0] == answers[1], "another order of the list");
    if let Ok(grown) = &answers[0] {
        adds_up(round, own, asked, grown);
    }
    for quantity in [asked.quantity + 1, asked.quantity + 2] {
        let _ = call(round, &Asked { quantity, room: asked.room + 14, ..asked.clone() });
    }
}

/// Each way to 24 alone, then what can go wrong, alone and together.
fn refused(round: &mut Round, own: &Own, valid: &Asked) {
    for (way, shape) in SHAPES.iter().enumerate() {
        let mut asked = valid.clone();
        misshape(&mut round.draw, &mut asked.hub, own.below(), way);
        let answer = call(round, &asked);
        round.same(answer == Err(24), shape);
        round.shown(&SHAPES[way..=way]);
    }
    for _ in 0..12 {
        let mut asked = valid.clone();
        for _ in 0..round.draw.within(1, 3) {
            let check = round.draw.below(10) as usize;
            wrong(&mut round.draw, &mut asked, own.below(), check);
        }
        let _ = call(round, &asked);
    }
}

pub fn round(round: &mut Round) {
    let own = own(round);
    let file = book::file_of(own.form, &own.book);
    for _ in 0..3 {
        let asked = valid(&mut round.draw, &own, &file);
        listed(round, &own, &asked);
    }
    let asked = valid(&mut round.draw, &own, &file);
    refused(round, &own, &asked);
    if own.size.nodes > 256 {
        edges(round, &asked);
    }
    if own.book.len() == 1000 {
        ladder(round, &own, &file);
    }
    let mut files = damaged(&mut round.draw, &file, 16);
    files.extend(super::book::too_many(&mut round.draw));
    files.extend((0..4).map(|_| super::book::out_of_range(&mut round.draw, own.form, &own.book, own.size.nodes)));
    for book in files {
        let _ = call(round, &Asked { book, ..asked.clone() });
    }
    for nodes in WRONG_NODES.into_iter().chain([asked.nodes - 1, asked.nodes + 1, 200, 4000]) {
        let _ = call(round, &Asked { nodes, ..asked.clone() });
    }
}
