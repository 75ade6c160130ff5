//! Writing the canonical form of books: of few fives, so that rows are added and cut; of copies with rows shuffled and split; of books that differ by one.

use super::*;
use crate::draw::{self, ends_below, Size, EXTREMES};
use crate::lent::Lent;
use crate::library;
use crate::second::book::{self, largest_end, record, Contract};
use crate::second::canonical::{canonical, canonical_file, five, totals, Five, FULL};
use crate::second::grid::Grid;
use crate::tally::Round;

/// What a book and its canonical form show, what was compared on grids, and what places show.
pub const CASES: [&str; 29] = [
    "an empty book",
    "already canonical",
    "the same rows in another order",
    "rows added",
    "several rows of 1,000,000 together",
    "several rows of 1,000,001 together",
    "full rows alone, of rows that were not full",
    "full rows and a rest",
    "a rest before its full row",
    "equal ends added",
    "1,000 rows into 1",
    "1,000 rows, none full, into 1,000",
    "1,000 full rows of one five",
    "kinds alone differ",
    "periods alone differ",
    "holders alone differ",
    "sources alone differ",
    "sinks alone differ",
    "kind before period",
    "period before holder",
    "holder before source",
    "source before sink",
    "a book that passes",
    "a book that fails",
    "an exact total that is not 0",
    "cents that differ",
    "a place shorter than the book is enough",
    "9 by one byte",
    "9 in a place longer than the book's header",
];

/// The extremes, and three rounds more: 1,000 rows of one five and of one quantity.
const ONE_QUANTITY: [i128; 3] = [1_000, 999_999, FULL];
pub const FIRST_ROUNDS: u64 = (EXTREMES.len() + ONE_QUANTITY.len()) as u64;

#[derive(Clone)]
struct Asked {
    nodes: usize,
    book: Vec<u8>,
    room: usize,
}

/// The canonical form by the library, in a place of the book's length.
fn proved_form(nodes: usize, book: &[u8]) -> Answer<Vec<u8>> {
    let (mut file, mut bytes) = (vec![0; book.len()], 0);
    match library::write_canonical_book(nodes, book, &mut file, &mut bytes) {
        0 => Ok(file[..bytes].to_vec()),
        number => Err(number),
    }
}

/// One call; gives the second implementation's answer.
fn call(round: &mut Round, asked: &Asked) -> Answer<Vec<u8>> {
    let Asked { nodes, book, room } = asked;
    let second = canonical_file(*nodes, book, *room);
    let mut file = Lent::<u8>::new(&mut round.draw, "file", *room);
    let mut bytes = Lent::<usize>::new(&mut round.draw, "bytes", 1);
    let proved = library::write_canonical_book(*nodes, book, file.slice(), bytes.figure());
    let (number, written) = written(&second);
    let count = second.as_ref().map(|file| vec![file.len() as i128]).unwrap_or_default();
    let mut differences = vec![file.difference(&written), bytes.difference(&count)];
    if (proved, number) == (0, 0) {
        let again = proved_form(*nodes, &file.slice()[..written.len()]);
        differences.push(unless(again == second, "written again it is another file"));
    }
    round.compare(proved, number, &differences);
    let shorter = number == 0 && *room < book.len();
    let by_one = number == 9 && canonical_file(*nodes, book, room + 1).is_ok();
    for (case, shows) in (26..).zip([shorter, by_one, number == 9 && *room > 2]) {
        round.shown(if shows { &CASES[case..=case] } else { &[] });
    }
    second
}

/// Whether two rows are alike before the place, and the one that comes first there comes last at the next.
fn opposed(fives: &[Five], place: usize) -> bool {
    let pair = |a: &Five, b: &Five| a[..place] == b[..place] && a[place] < b[place] && a[place + 1] > b[place + 1];
    fives.iter().any(|a| fives.iter().any(|b| pair(a, b)))
}

/// Whether two rows differ at the place alone.
fn alone(fives: &[Five], place: usize) -> bool {
    let pair = |a: &Five, b: &Five| (0..5).all(|at| (a[at] == b[at]) == (at != place));
    fives.iter().any(|a| fives.iter().any(|b| pair(a, b)))
}

/// What the rows of one five show, of cases 4 to 9.
fn of_five(book: &[Contract], own: &Five, total: i128) -> [bool; 6] {
    let rows: Vec<i128> = book.iter().filter(|row| five(row) == *own).map(|row| row.quantity).collect();
    let several = rows.len() > 1;
    let full = rows.iter().position(|&quantity| quantity == FULL);
    [
        several && total == FULL,
        several && total == FULL + 1,
        several && total % FULL == 0 && full.is_none(),
        total > FULL && total % FULL > 0,
        full.is_some_and(|place| place > 0) && rows[0] < FULL,
        several && own[3] == own[4],
    ]
}

/// What a book shows.
fn cases(book: &[Contract]) -> Vec<&'static str> {
    let (form, totals) = (canonical(book), totals(book));
    let few: Vec<Five> = totals.keys().take(60).copied().collect();
    let own: Vec<[bool; 6]> = totals.iter().take(60).map(|(five, &total)| of_five(book, five, total)).collect();
    let thousand = book.len() == 1000;
    let mut shown = vec![
        book.is_empty(),
        !book.is_empty() && form == book,
        form.len() == book.len() && form != book && form.iter().all(|row| book.contains(row)),
        form.len() < book.len(),
    ];
    shown.extend((0..6).map(|case| own.iter().any(|of| of[case])));
    shown.push(thousand && form.len() == 1);
    shown.push(thousand && form.len() == 1000 && book.iter().all(|row| row.quantity < FULL) && form[0].quantity == FULL);
    shown.push(thousand && totals.len() == 1 && form == book);
    shown.extend((0..5).map(|place| alone(&few, place)));
    shown.extend((0..4).map(|place| opposed(&few, place)));
    (0..shown.len()).filter(|&case| shown[case]).map(|case| CASES[case]).collect()
}

/// One of the five changed, or the ends exchanged.
fn another(draw: &mut Draw, row: &mut Contract, below: i128) {
    match draw.below(6) {
        0 => row.kind = 1 - row.kind,
        1 => row.period = 1 - row.period,
        2 => row.holder = draw.pick(&[0, 1, 255, 256, 511, 512, 1_023]),
        3 => row.source = draw.within(0, below - 1),
        4 => row.sink = draw.within(0, below - 1),
        _ => (row.source, row.sink) = (row.sink, row.source),
    }
}

/// Contracts of few fives, by quantities that often make up full rows.
fn few(draw: &mut Draw, size: Size, form: Form) -> Vec<Contract> {
    let contracts = draw.within(1, 3);
    let pool = draw::book(draw, Size { contracts, ..size }, form);
    let likely = [1, 2, 250_000, 499_999, 500_000, 500_001, 600_000, 999_999, FULL, FULL];
    let row = |draw: &mut Draw| {
        let mut row = draw.pick(&pool);
        row.quantity = if draw.once_in(4) { draw.within(1, FULL) } else { draw.pick(&likely) };
        if draw.once_in(3) {
            another(draw, &mut row, ends_below(form, size.nodes));
        }
        row
    };
    (0..size.contracts).map(|_| row(draw)).collect()
}

fn shuffle(draw: &mut Draw, rows: &mut [Contract]) {
    for last in (1..rows.len()).rev() {
        rows.swap(last, draw.below(last as u64 + 1) as usize);
    }
}

/// A copy of a book: some rows split in two, as long as there is room, and all shuffled.
fn copy(draw: &mut Draw, book: &[Contract]) -> Vec<Contract> {
    let mut rows = book.to_vec();
    for _ in 0..draw.below(9) {
        let row = draw.below(rows.len().max(1) as u64) as usize;
        if rows.len() < 1000 && rows.get(row).is_some_and(|row| row.quantity > 1) {
            let part = draw.within(1, rows[row].quantity - 1);
            rows[row].quantity -= part;
            rows.push(Contract { quantity: part, ..rows[row] });
        }
    }
    shuffle(draw, &mut rows);
    rows
}

/// A book that means something else: one quantity by one more or less, one of the five, or a row left out.
fn changed(draw: &mut Draw, book: &[Contract], below: i128) -> Option<Vec<Contract>> {
    let mut rows = book.to_vec();
    let place = draw.below(rows.len().max(1) as u64) as usize;
    let row = rows.get_mut(place)?;
    match draw.below(8) {
        0 => {
            rows.remove(place);
        }
        1 | 2 => another(draw, row, below),
        _ if row.quantity == FULL || row.quantity > 1 && draw.once_in(2) => row.quantity -= 1,
        _ => row.quantity += 1,
    }
    (totals(&rows) != totals(book)).then_some(rows)
}

/// Copies have the book's form, byte for byte, also for other node counts; a book that means something else has another.
fn theorems(round: &mut Round, nodes: usize, form: Form, book: &[Contract]) {
    let file = book::file_of(form, book);
    let own = proved_form(nodes, &file);
    for _ in 0..3 {
        let copy = book::file_of(form, &copy(&mut round.draw, book));
        let _ = call(round, &Asked { nodes, room: copy.len(), book: copy.clone() });
        round.holds(own.is_ok() && proved_form(nodes, &copy) == own, "a copy of the book has another form");
    }
    for nodes in [4000, nodes + usize::from(nodes < 4000)] {
        let _ = call(round, &Asked { nodes, room: file.len(), book: file.clone() });
        round.holds(proved_form(nodes, &file) == own, "for another node count the book has another form");
    }
    for _ in 0..3 {
        if let Some(other) = changed(&mut round.draw, book, ends_below(form, nodes as i128)) {
            let other = book::file_of(form, &other);
            let _ = call(round, &Asked { nodes, room: other.len(), book: other.clone() });
            round.holds(proved_form(nodes, &other) != own, "a book that means something else has the same form");
        }
    }
}

/// What survives: the test's figures and the flows, the exact total; and what need not, the sum of the cents.
#[derive(PartialEq)]
struct Meaning {
    tested: Vec<(u64, u64, usize, usize, i64)>,
    flows: Vec<i64>,
    totals: [(u64, i64, u64); 2],
}

fn meaning(grid: &Grid, prices: &[u64], book: &[u8]) -> (Meaning, [i64; 2]) {
    let (nodes, constraints) = (grid.nodes as usize, grid.constraints as usize);
    let limits: Vec<u64> = grid.limits.iter().map(|&limit| limit as u64).collect();
    let factors: Vec<i64> = grid.factor_cells().iter().map(|&factor| factor as i64).collect();
    let test = |process: u64, period: u64| {
        let (mut set, mut count, mut lowest, mut excess) = (7, 7, 7, 7);
        let lent = (&mut set, &mut count, &mut lowest, &mut excess);
        let answer = library::test_book(nodes, constraints, process, period, &limits, &factors, book, lent.0, lent.1, lent.2, lent.3);
        (answer, set, count, lowest, excess)
    };
    let tested = (0..6).map(|line| test(line % 3, line / 3)).collect();
    let (mut flows, mut totals, mut sums) = (vec![7; 2 * constraints], [(7, 7, 7); 2], [7; 2]);
    let (mut cents, mut priced) = (vec![0; 1000], vec![0; 1000]);
    for period in 0..2 {
        let own = &mut flows[period * constraints..][..constraints];
        library::find_flows(nodes, constraints, period as u64, &limits, &factors, book, own, &mut 0);
        let (mut whole, mut parts) = (7, 7);
        let lent = (&mut cents, &mut priced, &mut sums[period], &mut whole, &mut parts);
        let answer =
            library::settle_hour(nodes, constraints, period as u64, &factors, prices, book, lent.0, lent.1, lent.2, lent.3, lent.4);
        totals[period] = (answer, whole, parts);
    }
    (Meaning { tested, flows, totals }, sums)
}

/// The book and its canonical form, as the library writes it, mean the same on a grid.
fn survives(round: &mut Round, size: Size, file: &[u8]) {
    let constraints = if size.nodes > 300 { size.constraints.min(2) } else { size.constraints };
    let grid = draw::grid(&mut round.draw, Size { constraints, ..size });
    let prices: Vec<u64> = draw::prices(&mut round.draw, constraints).iter().map(|&price| price as u64).collect();
    let form = proved_form(grid.nodes as usize, file);
    let (before, sums) = meaning(&grid, &prices, file);
    let (after, canonical_sums) = meaning(&grid, &prices, form.as_deref().unwrap_or_default());
    round.holds(before == after, "in canonical form, the book has another verdict, flow or exact total");
    let fails = |wanted: bool| before.tested.iter().any(|(_, set, ..)| (*set != 0) == wanted);
    let total = before.totals.iter().any(|&(_, whole, parts)| (whole, parts) != (0, 0));
    for (case, shows) in (22..).zip([fails(false), fails(true), total, sums != canonical_sums]) {
        round.shown(if shows { &CASES[case..=case] } else { &[] });
    }
}

/// One book in both forms, where its ends fit both: the same rows.
fn both_forms(round: &mut Round, nodes: usize, book: &[Contract]) {
    let narrow: Vec<Contract> = book.iter().filter(|own| own.source.max(own.sink) < 256).copied().collect();
    let rows = [Form::Narrow, Form::Wide].map(|form| {
        let file = book::file_of(form, &narrow);
        let given = call(round, &Asked { nodes, room: file.len(), book: file });
        given.and_then(|file| book::parse(nodes as i128, &file)).map(|(kept, rows)| (kept == form, rows))
    });
    round.same(rows[0] == rows[1] && rows[0].as_ref().is_ok_and(|(kept, _)| *kept), "one book in both forms");
}

/// For each check a call that fails there and at every later check that can fail with it.
fn ladder(draw: &mut Draw, form: Form) -> Vec<(u64, Asked)> {
    let (spare, mixed) = (if form == Form::Wide { 63 } else { 0 }, draw.within(1, 62) as u8);
    let header = |count: i128, spare: u8| vec![(count / 4) as u8, (count % 4 * 64) as u8 | spare];
    let row = |end: i128, quantity: i128| Contract { kind: 0, period: 1, holder: 7, source: 0, sink: end, quantity };
    let far = largest_end(form);
    let of = |rows: &[Contract]| book::file_of(form, rows);
    let asked = |nodes: usize, book: Vec<u8>| Asked { nodes, book, room: 0 };
    let too_many = header(draw.within(1001, 1023), mixed);
    let longer = [of(&[row(far, 0), row(1, 0)]), vec![0]].concat();
    let fits = of(&[row(1, 5), row(1, 5)]);
    let no_nodes = draw.pick(&WRONG_NODES);
    vec![
        (2, asked(no_nodes, Vec::new())),
        (2, asked(no_nodes, too_many.clone())),
        (2, asked(no_nodes, of(&[row(far, 0)]))),
        (1, asked(2, draw.bytes(1))),
        (10, asked(2, too_many)),
        (4, asked(2, [header(1, mixed), vec![0; 5]].concat())),
        (5, asked(2, longer)),
        (5, asked(2, header(2, spare))),
        (11, asked(2, of(&[row(far, 0), row(1, 0)]))),
        (13, asked(2, of(&[row(1, 0), row(far, 5)]))),
        (13, asked(2, of(&[row(1, FULL), row(1, FULL + 1), row(far, 0)]))),
        (9, asked(2, fits.clone())),
        (9, Asked { nodes: 2, room: 1 + record(form), book: fits }),
    ]
}

/// What can go wrong with a valid call.
fn refused(round: &mut Round, size: Size, form: Form, book: &[Contract], valid: &Asked) {
    for (number, asked) in ladder(&mut round.draw, form) {
        let answer = call(round, &asked);
        round.holds(answer == Err(number), &format!("another refusal than {number}, which comes first"));
    }
    for nodes in WRONG_NODES.into_iter().chain([valid.nodes - 1, valid.nodes + 1, 200, 4000]) {
        let _ = call(round, &Asked { nodes, ..valid.clone() });
    }
    let few = if valid.book.len() > 100 { 40 } else { valid.book.len() };
    let mut files = damaged(&mut round.draw, &valid.book, 16);
    files.extend(super::book::too_many(&mut round.draw));
    files.extend(cuts(&valid.book).take(few).map(<[u8]>::to_vec));
    files.extend((0..6).map(|_| super::book::out_of_range(&mut round.draw, form, book, size.nodes)));
    for file in files {
        let room = if round.draw.once_in(4) { short(valid.room) } else { valid.room };
        let nodes = if round.draw.once_in(12) { round.draw.pick(&WRONG_NODES) } else { valid.nodes };
        let _ = call(round, &Asked { nodes, book: file, room });
    }
}

/// A round's size and books: of few fives, and of any.
fn inputs(round: &mut Round, form: Form) -> (Size, Vec<Vec<Contract>>) {
    let drawn = draw::size(&mut round.draw, round.number);
    let number = round.number as usize;
    if let Some(&quantity) = number.checked_sub(EXTREMES.len()).and_then(|place| ONE_QUANTITY.get(place)) {
        let one = Contract { quantity, ..draw::book(&mut round.draw, Size { contracts: 1, ..drawn }, form)[0] };
        return (drawn, vec![vec![one; 1000]]);
    }
    let contracts = if number < EXTREMES.len() { drawn.contracts } else { round.draw.within(0, 12) };
    let own = Size { contracts, ..drawn };
    let canonical_first = canonical(&few(&mut round.draw, own, form));
    (drawn, vec![few(&mut round.draw, own, form), draw::book(&mut round.draw, drawn, form), canonical_first])
}

pub fn round(round: &mut Round) {
    let form = round.draw.form_of(round.number);
    let (size, books) = inputs(round, form);
    let nodes = size.nodes as usize;
    for book in &books {
        let file = book::file_of(form, book);
        let length = canonical_file(nodes, &file, file.len()).map_or(0, |written| written.len());
        round.shown(&cases(book));
        round.shown(&forms::book(form, size.nodes, book));
        for room in [length, length + 1, length + 9, file.len(), short(length), length / 2, 1, 0] {
            let _ = call(round, &Asked { nodes, book: file.clone(), room });
        }
        theorems(round, nodes, form, book);
        survives(round, size, &file);
        both_forms(round, nodes, book);
    }
    let file = book::file_of(form, &books[0]);
    let valid = Asked { nodes, room: file.len(), book: file };
    refused(round, size, form, &books[0], &valid);
}
