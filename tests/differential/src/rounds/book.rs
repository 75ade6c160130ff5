//! Reading and writing books.

use super::*;
use crate::draw::{self, Size};
use crate::lent::Lent;
use crate::library;
use crate::second::book::{self, largest_end, record, Contract};
use crate::tally::Round;

/// What was read, written again in the form read, must be the file.
fn written_again(file: &[u8], form: u64, nodes: usize, contracts: usize, rows: &[u64]) -> Option<String> {
    let (mut again, mut bytes) = (vec![0; file.len()], 0);
    let answer = library::write_book(form, nodes, contracts, rows, &mut again, &mut bytes);
    unless((answer, bytes) == (0, file.len()) && again == file, "written again it is another file")
}

pub fn read_call(round: &mut Round, nodes: usize, file: &[u8], room: usize) {
    let second = book::read(nodes, file, room);
    let mut cells = Lent::<u64>::new(&mut round.draw, "book", room);
    let mut contracts = Lent::<usize>::new(&mut round.draw, "contracts", 1);
    let mut form = Lent::<u64>::new(&mut round.draw, "form", 1);
    let proved = library::read_book(nodes, file, cells.slice(), contracts.figure(), form.figure());
    let (number, rows, figures) = match &second {
        Ok((form, book)) => {
            round.shown(&forms::book(*form, nodes as i128, book));
            (0, book.iter().flat_map(Contract::row).collect(), [vec![book.len() as i128], vec![form.number()]])
        }
        Err(number) => {
            round.shown(&forms::book_refused(file, *number));
            (*number, Vec::new(), Default::default())
        }
    };
    let mut differences = vec![cells.difference(&rows), contracts.difference(&figures[0]), form.difference(&figures[1])];
    if proved == 0 {
        differences.push(written_again(file, *form.figure(), nodes, *contracts.figure(), cells.slice()));
    }
    round.compare(proved, number, &differences);
}

/// A node number that its field holds and that is no node; where there is none, the largest of the field.
fn no_node(draw: &mut Draw, form: Form, nodes: i128) -> i128 {
    let largest = largest_end(form);
    draw.within(nodes.min(largest), largest)
}

/// A file with contracts that their fields hold and the rules do not.
pub fn out_of_range(draw: &mut Draw, form: Form, book: &[Contract], nodes: i128) -> Vec<u8> {
    let mut book = book.to_vec();
    for _ in 0..draw.within(1, 2) {
        if let Some(last) = book.len().checked_sub(1) {
            let contract = &mut book[draw.within(0, last as i128) as usize];
            match draw.below(5) {
                0 => contract.source = no_node(draw, form, nodes),
                1 => contract.sink = no_node(draw, form, nodes),
                2 => {
                    let node = no_node(draw, form, nodes);
                    (contract.source, contract.sink) = (node, node)
                }
                3 => contract.quantity = 0,
                _ => contract.quantity = draw.pick(&[1_000_001, 1_048_575]),
            }
        }
    }
    book::file_of(form, &book)
}

/// A header of too many contracts, with all spare bits clear or set: alone, and with as many bytes as it says.
pub fn too_many(draw: &mut Draw) -> [Vec<u8>; 4] {
    let count = draw.within(1001, 1023) as u64;
    let header = |spare: u64| vec![(count >> 2) as u8, (count << 6 | spare) as u8];
    let whole = |spare: u64, record: usize| [header(spare), vec![0; record * count as usize]].concat();
    [header(0), header(63), whole(0, 6), whole(63, 7)]
}

/// A book's file with its spare bits set otherwise: by the other form's pattern, or by none.
fn other_spare(draw: &mut Draw, file: &[u8]) -> [Vec<u8>; 2] {
    [file[1] ^ 63, file[1] & !63 | draw.within(1, 62) as u8].map(|low| {
        let mut file = file.to_vec();
        file[1] = low;
        file
    })
}

/// A file of the wrong length for its form, and the right one for the other.
fn other_length(draw: &mut Draw, form: Form, file: &[u8], contracts: usize) -> Vec<u8> {
    let mut file = file.to_vec();
    let more = draw.bytes(contracts);
    file.extend(more);
    file.truncate(2 + (13 - record(form)) * contracts);
    file
}

pub fn read(round: &mut Round) {
    let size = draw::size(&mut round.draw, round.number);
    let form = round.draw.form_of(round.number);
    let book = draw::book(&mut round.draw, size, form);
    let file = book::file_of(form, &book);
    let (nodes, room) = (size.nodes as usize, 6 * book.len());
    for room in [room, room + 1, room + 13, short(room), 0] {
        read_call(round, nodes, &file, room);
    }
    for nodes in WRONG_NODES.into_iter().chain([1, nodes - 1, nodes + 1, 200, 201, 256, 4000]) {
        read_call(round, nodes, &file, room);
    }
    for cut in some_cuts(&file).chain(cuts(&file).take(if round.number < 2 { 7_002 } else { 100 })) {
        read_call(round, nodes, cut, room);
    }
    let mut files = damaged(&mut round.draw, &file, 16);
    files.extend(too_many(&mut round.draw));
    files.extend(other_spare(&mut round.draw, &file));
    files.push(other_length(&mut round.draw, form, &file, book.len()));
    files.extend((0..10).map(|_| out_of_range(&mut round.draw, form, &book, size.nodes)));
    for file in files {
        let nodes = if round.draw.once_in(12) { round.draw.pick(&WRONG_NODES) } else { nodes };
        let room = if round.draw.once_in(4) { short(room) } else { room };
        read_call(round, nodes, &file, room);
    }
}

struct Table {
    form: u64,
    nodes: usize,
    contracts: usize,
    cells: Vec<u64>,
    room: usize,
}

/// What was written, read again, must be what was handed in.
fn read_back(asked: &Table, file: &[u8]) -> Option<String> {
    let mut rows = vec![0; 6 * asked.contracts];
    let (mut contracts, mut form) = (0, 7);
    let answer = library::read_book(asked.nodes, file, &mut rows, &mut contracts, &mut form);
    let counts = (answer, contracts, form) == (0, asked.contracts, u64::from(asked.form != 0));
    unless(counts && rows == asked.cells[..rows.len()], "read again it is another book")
}

fn write_call(round: &mut Round, asked: &Table) {
    let Table { form, nodes, contracts, cells, room } = asked;
    let second = book::write(Form::told(*form), *nodes, *contracts, cells, *room);
    let mut file = Lent::<u8>::new(&mut round.draw, "file", *room);
    let mut bytes = Lent::<usize>::new(&mut round.draw, "bytes", 1);
    let proved = library::write_book(*form, *nodes, *contracts, cells, file.slice(), bytes.figure());
    let (number, written) = written(&second);
    if let Ok(file) = &second {
        let (form, book) = book::parse(*nodes as i128, file).expect("a file that was written");
        round.shown(&forms::book(form, *nodes as i128, &book));
    }
    round.shown(&forms::book_written(*form, *nodes, cells, number));
    let count = second.map(|file| vec![file.len() as i128]).unwrap_or_default();
    let mut differences = vec![file.difference(&written), bytes.difference(&count)];
    if (proved, number) == (0, 0) {
        differences.push(read_back(asked, &file.slice()[..written.len()]));
    }
    round.compare(proved, number, &differences);
}

/// Sets one cell of a row of the table.
fn set(draw: &mut Draw, asked: &mut Table, column: usize, value: u64) {
    let rows = asked.contracts.min(asked.cells.len() / 6);
    if rows > 0 {
        let row = draw.below(rows as u64) as usize;
        asked.cells[6 * row + column] = value;
    }
}

/// One thing wrong.
fn wrong(draw: &mut Draw, asked: &mut Table, size: Size, bytes: usize) {
    let large = [2, 255, 256, 1 << 32, 1 << 63, u64::MAX];
    let far = [size.nodes as u64, 200, 255, 256, 256, 3999, 4000, 4095, 4096, 1 << 32, u64::MAX];
    let column = draw.below(2) as usize;
    let value = draw.pick(&large);
    let node = draw.pick(&far);
    match draw.below(12) {
        0 => asked.nodes = draw.pick(&WRONG_NODES),
        1 => asked.contracts = draw.pick(&WRONG_CONTRACTS),
        2 => asked.cells.truncate(short((6 * asked.contracts.min(1000)).min(asked.cells.len()))),
        3 => set(draw, asked, column, value),
        4 => {
            let holder = draw.pick(&[1024, 1 << 32, u64::MAX]);
            set(draw, asked, 2, holder)
        }
        5 | 6 => set(draw, asked, 3 + column, node),
        7 => asked.cells.chunks_exact_mut(6).take(1).for_each(|row| (row[3], row[4]) = (node, node)),
        8 => {
            let quantity = draw.pick(&[0, 1_000_001, 1_048_575, 1 << 32, u64::MAX]);
            set(draw, asked, 5, quantity)
        }
        9 => asked.room = draw.pick(&[bytes - 1, 0, 1, bytes / 2]),
        10 => asked.form = 0,
        _ => asked.room = bytes + draw.below(9) as usize,
    }
}

/// One end about the largest of a narrow book, in both forms, and nothing else wrong.
fn far_end(round: &mut Round, nodes: usize, book: &[Contract], end: i128) {
    let mut book = book.to_vec();
    book.iter_mut().for_each(|own| (own.source, own.sink) = (own.source.min(255), own.sink.min(255)));
    if let Some(last) = book.last_mut() {
        if round.draw.once_in(2) {
            last.source = end;
        } else {
            last.sink = end;
        }
    }
    let cells: Vec<u64> = book.iter().flat_map(Contract::row).map(|cell| cell as u64).collect();
    for form in [Form::Narrow, Form::Wide] {
        let told = round.draw.told(form);
        write_call(round, &Table { form: told, nodes, contracts: book.len(), cells: cells.clone(), room: 2 + record(form) * book.len() });
    }
}

pub fn write(round: &mut Round) {
    let size = draw::size(&mut round.draw, round.number);
    let form = round.draw.form_of(round.number);
    let book = draw::book(&mut round.draw, size, form);
    let bytes = 2 + record(form) * book.len();
    let rows: Vec<i128> = book.iter().flat_map(Contract::row).collect();
    for call in 0..24 {
        let cells = table(&mut round.draw, &rows, |cell| cell as u64, u64::MAX);
        let mut asked = Table { form: round.draw.told(form), nodes: size.nodes as usize, contracts: book.len(), cells, room: bytes };
        for _ in 0..if call == 0 { 0 } else { round.draw.within(1, 3) } {
            wrong(&mut round.draw, &mut asked, size, bytes);
        }
        write_call(round, &asked);
    }
    for end in [254, 255, 256, 257].into_iter().filter(|_| size.nodes > 254) {
        far_end(round, size.nodes as usize, &book, end);
    }
}
