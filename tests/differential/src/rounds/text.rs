//! The texts of the report and the statement.

use super::priced::{self, Priced};
use super::*;
use crate::draw::{self, Size};
use crate::lent::Lent;
use crate::library;
use crate::second::test::of_period;
use crate::second::text::{self, Text};
use crate::second::{book, grid, prices};
use crate::tally::Round;

/// The refusal's number, the text's bytes and how many there are.
fn figures(second: &Answer<Text>) -> (u64, Vec<i128>, Vec<i128>) {
    match second {
        Ok(page) => (0, page.text.bytes().map(i128::from).collect(), vec![page.text.len() as i128]),
        Err(number) => (*number, Vec::new(), Vec::new()),
    }
}

/// What the files' forms and lengths show.
pub const CASES: [&str; 11] = [
    "narrow grid, narrow book",
    "narrow grid, wide book",
    "wide grid, narrow book",
    "wide grid, wide book",
    "wide grid of over 200 nodes",
    "an end above 255",
    "the longest grid taken",
    "a grid of 32,769 bytes, as its counts say, refused",
    "a longer grid refused",
    "a longer grid, 2 first",
    "a longer grid, 3 or 4 first",
];

/// Counts of the longest grids that are taken (32,766 bytes) and of those just above (32,769, then more).
const LONG: [(i128, i128); 12] =
    [(855, 17), (284, 51), (3639, 4), (1212, 12), (403, 36), (3638, 4), (226, 64), (2911, 5), (227, 64), (4000, 3), (4000, 4), (4000, 64)];

fn cases(grid_file: &[u8], book_file: &[u8], page: &Text) -> Vec<&'static str> {
    let wide = |file: &[u8], bits: u8| file.get(1).is_some_and(|low| low & bits == bits);
    let forms = (wide(grid_file, 1), wide(book_file, 63));
    let taken = page.refused.is_none();
    let long = grid_file.len() > text::GRID_BYTES;
    let drawn = |number: u64| long && page.refused == Some(("grid", number));
    let kind = |own: (bool, bool)| taken && forms == own;
    let nodes = grid_file.get(2..4).map_or(0, |bytes| u16::from_be_bytes([bytes[0], bytes[1]]));
    let whole = |form: Form, constraints: u8| grid::size(form, nodes.into(), constraints.into()) == grid_file.len() as i128;
    let far = |record: &[u8]| record[1] % 16 > 0 || record[3] % 16 > 0;
    names(
        &CASES,
        [
            kind((false, false)),
            kind((false, true)),
            kind((true, false)),
            kind((true, true)),
            taken && forms.0 && nodes > 200,
            kind((true, true)) && book_file[2..].chunks_exact(7).any(far),
            taken && grid_file.len() == 32_766,
            grid_file.len() == 32_769 && forms.0 && whole(Form::Wide, grid_file[1] >> 1) && drawn(5),
            grid_file.len() > 32_769 && drawn(5),
            drawn(2),
            drawn(3) || drawn(4),
        ],
    )
}

fn report_call(round: &mut Round, grid_file: &[u8], book_file: &[u8], room: usize) {
    let second = text::report(grid_file, book_file, room);
    let mut page = Lent::<u8>::new(&mut round.draw, "text", room);
    let mut bytes = Lent::<usize>::new(&mut round.draw, "bytes", 1);
    let proved = library::write_report(grid_file, book_file, page.slice(), bytes.figure());
    let (number, written, count) = figures(&second);
    if let Ok(page) = &second {
        round.shown(&cases(grid_file, book_file, page));
        round.named(page.refused);
    }
    round.compare(proved, number, &[page.difference(&written), bytes.difference(&count)]);
}

/// Grids that a text takes, seldom with very many nodes.
fn size(round: &mut Round) -> Size {
    let size = draw::size(&mut round.draw, round.number);
    let most = match size.constraints {
        4.. => 226,
        _ if round.number < 20 || round.draw.once_in(10) => 4000,
        _ => 300,
    };
    Size { nodes: size.nodes.min(most), ..size }
}

/// A grid's file and a book's file that fit each other.
fn files(draw: &mut Draw, size: Size) -> (Vec<u8>, Vec<u8>) {
    let mut grid = draw::grid(draw, size);
    if draw.once_in(2) {
        // small limits, so that books fail
        grid.limits.iter_mut().for_each(|limit| *limit %= 2_000);
    }
    let (grid_form, book_form) = (draw.form_for(size.nodes), draw.form());
    (grid::file_of(grid_form, &grid), book::file_of(book_form, &draw::book(draw, size, book_form)))
}

/// Grids at and above the longest that a text takes: as their counts say, a bit flipped, cut there, and longer by what no count says.
fn long_grids(round: &mut Round) -> Vec<Vec<u8>> {
    let Some(&(nodes, constraints)) = LONG.get(round.number as usize) else {
        return Vec::new();
    };
    let draw = &mut round.draw;
    let own = grid::file_of(Form::Wide, &draw::grid(draw, Size { nodes, constraints, contracts: 0 }));
    let (start, end) = (32 + draw.below(8 * own.len() as u64 - 32) as usize, 8 * own.len() - 1);
    let mut files = vec![flipped(&own, start), flipped(&own, end)];
    for length in [32_766, 32_767, 32_768, 32_769, 32_770, 40_000] {
        let mut file = own.clone();
        file.resize(length, 0);
        files.push(file);
    }
    let headers: [&[u8]; 9] =
        [&[0, 0], &[0xc9, 0], &[0xc9, 1], &[0, 1, 0, 0], &[0, 1, 0x0f, 0xa1], &[3, 0x82], &[0, 0x83, 0, 1], &[3, 5], &[3, 4]];
    files.extend(headers.map(|header| [header, &[0; 40_000]].concat()));
    files.push(own);
    files
}

/// Files that a book's checks refuse.
fn wrong_books(draw: &mut Draw, size: Size) -> Vec<Vec<u8>> {
    let form = draw.form();
    let contracts = draw::book(draw, Size { contracts: 3, ..size }, form);
    let mut books: Vec<Vec<u8>> = (0..8).map(|_| super::book::out_of_range(draw, form, &contracts, size.nodes)).collect();
    books.extend(super::book::too_many(draw));
    books
}

/// Files that a grid's checks refuse: a limit, a factor, a count.
fn wrong_grids(draw: &mut Draw, size: Size) -> Vec<Vec<u8>> {
    let mut limits = draw::grid(draw, size);
    let mut factors = limits.clone();
    let count = limits.limits.len();
    spoil(draw, &mut limits.limits, count, &[100_000_001, 134_217_727]);
    spoil(draw, &mut factors.factors[0], count, &[100_001, -100_001, 131_071, -131_072]);
    let form = draw.form_for(size.nodes);
    let mut grids = vec![grid::file_of(form, &limits), grid::file_of(form, &factors)];
    grids.extend(super::grid::too_large(draw));
    grids
}

fn whole_cuts(file: &[u8]) -> Vec<Vec<u8>> {
    some_cuts(file).map(<[u8]>::to_vec).collect()
}

pub fn report(round: &mut Round) {
    let size = size(round);
    let (grid, book) = files(&mut round.draw, size);
    let room = text::REPORT_BYTES;
    for room in [room, room + 1, room + 900, room - 1, 100, 0] {
        report_call(round, &grid, &book, room);
    }
    let mut grids = damaged(&mut round.draw, &grid, 16);
    grids.extend(whole_cuts(&grid));
    grids.extend(wrong_grids(&mut round.draw, size));
    grids.extend(long_grids(round));
    for wrong in grids {
        report_call(round, &wrong, &book, room);
    }
    let mut books = damaged(&mut round.draw, &book, 16);
    books.extend(whole_cuts(&book));
    books.extend(wrong_books(&mut round.draw, size));
    for wrong in books {
        report_call(round, &grid, &wrong, room);
    }
    for _ in 0..10 {
        let (grid, book) = files(&mut round.draw, size);
        report_call(round, &grid, &book, room);
    }
}

fn statement_call(round: &mut Round, grid_file: &[u8], book_file: &[u8], price_file: &[u8], room: usize) {
    let second = text::statement(grid_file, book_file, price_file, room);
    let mut page = Lent::<u8>::new(&mut round.draw, "text", room);
    let mut bytes = Lent::<usize>::new(&mut round.draw, "bytes", 1);
    let proved = library::write_statement(grid_file, book_file, price_file, page.slice(), bytes.figure());
    let (number, written, count) = figures(&second);
    if let Ok(page) = &second {
        round.shown(&cases(grid_file, book_file, page));
        round.named(page.refused);
    }
    round.compare(proved, number, &[page.difference(&written), bytes.difference(&count)]);
}

/// A price file for so many constraints.
fn price_file(draw: &mut Draw, size: Size) -> Vec<u8> {
    prices::file_of(draw.within(0, 1), &draw::prices(draw, size.constraints))
}

/// Files that a price file's checks refuse.
fn wrong_prices(draw: &mut Draw, size: Size) -> Vec<Vec<u8>> {
    let list = draw::prices(draw, size.constraints);
    let file = prices::file_of(draw.within(0, 1), &list);
    let more = Size { constraints: size.constraints + 1, ..size };
    let mut files = damaged(draw, &file, 8);
    files.extend(whole_cuts(&file));
    files.extend([super::prices::out_of_range(draw, &list), price_file(draw, more)]);
    files
}

pub fn statement(round: &mut Round) {
    let size = size(round);
    let (grid, book) = files(&mut round.draw, size);
    let prices = price_file(&mut round.draw, size);
    let room = text::STATEMENT_BYTES;
    for room in [room, room + 1, room + 900, room - 1, 100, 0] {
        statement_call(round, &grid, &book, &prices, room);
    }
    for _ in 0..12 {
        let (grid, book) = files(&mut round.draw, size);
        let prices = price_file(&mut round.draw, size);
        statement_call(round, &grid, &book, &prices, room);
    }
    for period in 0..2 {
        let Priced { grid, prices, book } = Priced::new(&mut round.draw);
        round.shown(&priced::cases(&grid, &prices, &of_period(&book, period)));
        let (grid_form, book_form) = (round.draw.form(), round.draw.form());
        let (grid, book) = (grid::file_of(grid_form, &grid), book::file_of(book_form, &book));
        statement_call(round, &grid, &book, &prices::file_of(period as i128, &prices), room);
    }
    for long in long_grids(round) {
        let constraints = i128::from(long[1] >> 1);
        let prices = price_file(&mut round.draw, Size { constraints, ..size });
        statement_call(round, &long, &[0, 0], &prices, room);
    }
    for wrong in wrong_prices(&mut round.draw, size) {
        statement_call(round, &grid, &book, &wrong, room);
    }
    let books = damaged(&mut round.draw, &book, 16).into_iter().chain(wrong_books(&mut round.draw, size));
    for wrong in books.chain(whole_cuts(&book)) {
        statement_call(round, &grid, &wrong, &prices, room);
    }
    let grids = damaged(&mut round.draw, &grid, 16).into_iter().chain(wrong_grids(&mut round.draw, size));
    for wrong in grids.chain(whole_cuts(&grid)) {
        let cut = round.draw.below(book.len() as u64) as usize;
        statement_call(round, &wrong, &book[..cut], &prices[1..], room);
    }
}
