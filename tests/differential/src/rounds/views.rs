//! The market's view of books, and holders' views.

use super::view_pairs::{holder_pairs, market_pairs, split};
use super::*;
use crate::draw::{self, Size};
use crate::lent::Lent;
use crate::library;
use crate::second::book::{self, record, Contract};
use crate::second::views::{holder, market};
use crate::tally::Round;

/// What the market's books show.
pub const MARKET: [&str; 6] =
    ["no contract", "1,000 contracts", "every holder 0 already", "holder 1,023", "a wide book", "an end above 255"];

/// What holders' views show.
pub const HOLDER: [&str; 13] = [
    "a holder without contracts",
    "a holder without contracts, into no byte",
    "all of 1,000 contracts, narrow",
    "all of 1,000 contracts, wide",
    "holder 0",
    "holder 1,023",
    "contracts of both periods",
    "a number above 255",
    "lower and higher holders",
    "an end above 255",
    "a place shorter than the book is enough",
    "a place as long as the book is too short",
    "18 though the number's last ten bits are a holder's",
];

const WRONG_HOLDERS: [u64; 7] = [1024, 1025, 2047, 1 << 16, 1 << 32, 1 << 63, u64::MAX];

/// An accepted book.
pub struct Own {
    pub size: Size,
    pub form: Form,
    pub book: Vec<Contract>,
}

impl Own {
    pub fn file(&self) -> Vec<u8> {
        book::file_of(self.form, &self.book)
    }
}

#[derive(Clone)]
struct Asked {
    nodes: usize,
    book: Vec<u8>,
    /// The market's view takes none.
    holder: u64,
    room: usize,
}

/// The market's view is a book with the same contracts and holder 0 in each, and its own market's view.
fn same_but_holders(asked: &Asked, view: &[u8]) -> Option<String> {
    let rows = |file: &[u8]| {
        let (mut rows, mut contracts, mut form) = (vec![0; 6000], 0, 7);
        let answer = library::read_book(asked.nodes, file, &mut rows, &mut contracts, &mut form);
        (answer, contracts, form, rows)
    };
    let mut expected = rows(&asked.book);
    expected.3.chunks_mut(6).for_each(|row| row[2] = 0);
    let (mut again, mut bytes) = (vec![0; view.len()], 0);
    let answer = library::write_market_view(asked.nodes, view, &mut again, &mut bytes);
    unless(rows(view) == expected && (answer, bytes) == (0, view.len()) && again == view, "read again it is another book")
}

fn market_call(round: &mut Round, asked: &Asked) {
    let Asked { nodes, book, room, .. } = asked;
    let second = market(*nodes, book, *room);
    let mut file = Lent::<u8>::new(&mut round.draw, "file", *room);
    let mut bytes = Lent::<usize>::new(&mut round.draw, "bytes", 1);
    let proved = library::write_market_view(*nodes, book, file.slice(), bytes.figure());
    let (number, written) = written(&second);
    let count = second.map(|view| vec![view.len() as i128]).unwrap_or_default();
    let mut differences = vec![file.difference(&written), bytes.difference(&count)];
    if (proved, number) == (0, 0) {
        differences.push(same_but_holders(asked, &file.slice()[..written.len()]));
    }
    round.compare(proved, number, &differences);
}

fn holder_call(round: &mut Round, asked: &Asked) {
    let Asked { nodes, book, holder: asked_for, room } = asked;
    let second = holder(*nodes, book, *asked_for, *room);
    let mut view = Lent::<u8>::new(&mut round.draw, "view", *room);
    let mut bytes = Lent::<usize>::new(&mut round.draw, "bytes", 1);
    let proved = library::write_holder_view(*nodes, book, *asked_for, view.slice(), bytes.figure());
    let (number, written) = written(&second);
    let count = second.map(|view| vec![view.len() as i128]).unwrap_or_default();
    round.compare(proved, number, &[view.difference(&written), bytes.difference(&count)]);
}

/// As drawn; all of one holder; or of a few whose numbers differ in one bit.
fn own(round: &mut Round) -> Own {
    let size = draw::size(&mut round.draw, round.number);
    let form = round.draw.form_of(round.number);
    let mut book = draw::book(&mut round.draw, size, form);
    let draw = &mut round.draw;
    let one = draw.within(0, 1023);
    // of the extremes, these two have 1,000 contracts in each form
    let kind = if [3, 4].contains(&round.number) { 0 } else { draw.below(4) };
    for contract in &mut book {
        let near = one ^ 1 << draw.below(10);
        contract.holder = match kind {
            0 => one,
            1 => draw.pick(&[one, near]),
            _ => contract.holder,
        };
    }
    Own { size, form, book }
}

fn market_cases(own: &Own) -> Vec<&'static str> {
    let Own { form, book, .. } = own;
    let shown = [
        book.is_empty(),
        book.len() == 1000,
        !book.is_empty() && book.iter().all(|contract| contract.holder == 0),
        book.iter().any(|contract| contract.holder == 1023),
        *form == Form::Wide,
        book.iter().any(|contract| contract.source.max(contract.sink) > 255),
    ];
    names(&MARKET, shown)
}

fn holder_cases(own: &Own, asked: &Asked) -> Vec<&'static str> {
    let Own { form, book, .. } = own;
    let asked_for = i128::from(asked.holder);
    let held: Vec<(usize, &Contract)> = book.iter().enumerate().filter(|(_, contract)| contract.holder == asked_for).collect();
    let length = (2 + record(*form)) * held.len();
    let all = book.len() == 1000 && held.len() == 1000 && length <= asked.room;
    let fits = asked.holder < 1024 && !held.is_empty() && length <= asked.room;
    let other = |holder: i128| book.iter().any(|contract| contract.holder == holder);
    let shown = [
        asked.holder < 1024 && held.is_empty(),
        asked.holder < 1024 && held.is_empty() && asked.room == 0,
        all && *form == Form::Narrow,
        all && *form == Form::Wide,
        fits && asked.holder == 0,
        fits && asked.holder == 1023,
        fits && [0, 1].iter().all(|period| held.iter().any(|(_, contract)| contract.period == *period)),
        fits && held.iter().any(|(number, _)| *number > 255),
        fits && (0..asked_for).any(other) && (asked_for + 1..1024).any(other),
        fits && held.iter().any(|(_, contract)| contract.source.max(contract.sink) > 255),
        fits && asked.room < asked.book.len(),
        length > asked.room && asked.room == asked.book.len(),
        asked.holder > 1023 && other(asked_for % 1024),
    ];
    names(&HOLDER, shown)
}

/// For each check in its turn, a call that fails at it and, as far as one can, at every later one; and the refusal that is expected.
fn ladder(draw: &mut Draw, form: Form) -> [(u64, Asked); 10] {
    let size = Size { nodes: draw.within(1, 200), constraints: 0, contracts: draw.within(2, 5) };
    let mut book = draw::book(draw, size, form);
    let holder = book[0].holder as u64;
    let whole = book::file_of(form, &book);
    // a contract's 13 comes before the next one's 11, and its 11 before its 13
    book[0].quantity = draw.pick(&[0, 1_000_001]);
    book[1].source = size.nodes;
    let quantity = book::file_of(form, &book);
    book[0].sink = size.nodes;
    let node = book::file_of(form, &book);
    let length = grown(draw, &node, 1);
    let spare = flipped(&length, 15);
    let many = [&[0xfb], &spare[1..]].concat();
    let (nodes, wrong) = (size.nodes as usize, draw.pick(&WRONG_HOLDERS));
    let asked = |nodes: usize, book: &[u8], holder: u64| Asked { nodes, book: book.to_vec(), holder, room: 0 };
    [
        (2, asked(0, &[], wrong)),
        (2, asked(4001, &many, wrong)),
        (1, asked(nodes, &many[..1], wrong)),
        (10, asked(nodes, &many, wrong)),
        (4, asked(nodes, &spare, wrong)),
        (5, asked(nodes, &length, wrong)),
        (11, asked(nodes, &node, wrong)),
        (13, asked(nodes, &quantity, wrong)),
        (18, asked(nodes, &whole, wrong)),
        (9, asked(nodes, &whole, holder)),
    ]
}

/// Files that are no such book.
fn wrong_books(draw: &mut Draw, own: &Own, file: &[u8]) -> Vec<Vec<u8>> {
    let few = if file.len() > 100 { 40 } else { file.len() };
    let mut files = damaged(draw, file, 16);
    files.extend(super::book::too_many(draw));
    files.extend(cuts(file).take(few).map(<[u8]>::to_vec));
    files.extend((0..6).map(|_| super::book::out_of_range(draw, own.form, &own.book, own.size.nodes)));
    files
}

/// Calls that are refused, mostly: by the node count, by the file, and by both and what comes later.
fn refused(round: &mut Round, own: &Own, valid: &Asked, call: fn(&mut Round, &Asked)) {
    for nodes in WRONG_NODES.into_iter().chain([valid.nodes - 1, valid.nodes + 1, 200, 4000]) {
        call(round, &Asked { nodes, ..valid.clone() });
    }
    for book in wrong_books(&mut round.draw, own, &valid.book) {
        let mut asked = Asked { book, ..valid.clone() };
        match round.draw.below(12) {
            0 => asked.nodes = round.draw.pick(&WRONG_NODES),
            1 => asked.holder = round.draw.pick(&WRONG_HOLDERS),
            2 => asked.room = short(asked.room),
            3 => asked.room = 0,
            _ => {}
        }
        call(round, &asked);
    }
}

pub fn market_round(round: &mut Round) {
    let own = own(round);
    round.shown(&market_cases(&own));
    let file = own.file();
    let valid = Asked { nodes: own.size.nodes as usize, holder: 0, room: file.len(), book: file };
    for room in [valid.room, valid.room + 1, valid.room + 9, valid.room - 1, 2, 0] {
        market_call(round, &Asked { room, ..valid.clone() });
    }
    refused(round, &own, &valid, market_call);
    for (number, asked) in ladder(&mut round.draw, own.form).into_iter().filter(|(number, _)| *number != 18) {
        round.same(market(asked.nodes, &asked.book, asked.room) == Err(number), "refusals in their order");
        market_call(round, &asked);
    }
    let files = [vec![valid.book.clone(); 4], wrong_books(&mut round.draw, &own, &valid.book)].concat();
    market_pairs(round, &own, &files);
}

/// A holder of the book's, its neighbours, the ends of the range, any, and none.
fn holders(draw: &mut Draw, book: &[Contract]) -> Vec<u64> {
    let any = draw.below(1024);
    let one = if book.is_empty() { any } else { book[draw.below(book.len() as u64) as usize].holder as u64 };
    let beyond = one + draw.pick(&[1 << 10, 1 << 16, 1 << 32, 1 << 63]);
    vec![one, one ^ 1 << draw.below(10), one.saturating_sub(1), (one + 1).min(1023), 0, 1023, any, 1024, beyond, draw.pick(&WRONG_HOLDERS)]
}

pub fn holder_round(round: &mut Round) {
    let own = own(round);
    let file = own.file();
    let asked_for = holders(&mut round.draw, &own.book);
    for &number in &asked_for {
        let held = own.book.iter().filter(|contract| contract.holder == i128::from(number)).count();
        let length = (2 + record(own.form)) * held;
        for room in [length, length + 1, length + 9, short(length), file.len(), 0] {
            let asked = Asked { nodes: own.size.nodes as usize, book: file.clone(), holder: number, room };
            round.shown(&holder_cases(&own, &asked));
            holder_call(round, &asked);
        }
    }
    let valid = Asked { nodes: own.size.nodes as usize, holder: asked_for[0], room: 9000, book: file };
    refused(round, &own, &valid, holder_call);
    for (number, asked) in ladder(&mut round.draw, own.form) {
        let second = holder(asked.nodes, &asked.book, asked.holder, asked.room);
        round.same(second == Err(number), "refusals in their order");
        holder_call(round, &asked);
    }
    for &number in asked_for.iter().filter(|number| **number < 1024) {
        holder_pairs(round, &own, number);
    }
    split(round, &own);
}
