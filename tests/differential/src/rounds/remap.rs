//! Remapping the retired nodes of books.

use super::*;
use crate::draw::{self, ends_below, Size};
use crate::lent::Lent;
use crate::library;
use crate::second::book::{self, record, Contract};
use crate::second::remap::{remap, remapped, step};
use crate::tally::Round;

/// What the pairs do to the book.
pub const CASES: [&str; 13] = [
    "no pairs",
    "a pair of equal numbers",
    "an old number again",
    "more pairs than nodes",
    "an end moved twice",
    "an end moved back",
    "ends made equal",
    "equal ends moved",
    "another order differs",
    "a wide book",
    "an end moved above 255",
    "an old number above 255, of a narrow book",
    "a new number above 255, of a narrow book, refused",
];

/// What the book and the pairs are.
struct Own {
    size: Size,
    form: Form,
    book: Vec<Contract>,
}

#[derive(Clone)]
struct Asked {
    nodes: usize,
    book: Vec<u8>,
    old: Vec<u64>,
    new: Vec<u64>,
    room: usize,
}

fn call(round: &mut Round, asked: &Asked) {
    let Asked { nodes, book, old, new, room } = asked;
    let second = remap(*nodes, book, old, new, *room);
    let mut file = Lent::<u8>::new(&mut round.draw, "file", *room);
    let mut bytes = Lent::<usize>::new(&mut round.draw, "bytes", 1);
    let proved = library::remap_book(*nodes, book, old, new, file.slice(), bytes.figure());
    let (number, written) = written(&second);
    // 11 by the form alone: every listed number is a node's
    let listed = old.iter().chain(new).all(|&node| node < *nodes as u64);
    if number == 11 && listed && book::parse(*nodes as i128, book).is_ok() {
        round.shown(&CASES[12..]);
    }
    let count = second.map(|file| vec![file.len() as i128]).unwrap_or_default();
    round.compare(proved, number, &[file.difference(&written), bytes.difference(&count)]);
}

/// Pairs along a walk from node to node: a chain, the chain from its end, a cycle, no move, one node retired again and again, all into one, or at random.
/// New numbers fit the book's form, and the walk often starts at a contract's end.
fn run(draw: &mut Draw, own: &Own) -> Vec<(u64, u64)> {
    let nodes = own.size.nodes as u64;
    let below = ends_below(own.form, own.size.nodes) as u64;
    let mut walk: Vec<u64> = (0..draw.within(2, 6)).map(|_| draw.below(below)).collect();
    if !own.book.is_empty() && draw.once_in(2) {
        walk[0] = own.book[draw.below(own.book.len() as u64) as usize].source as u64;
    }
    let chain = walk.windows(2).map(|step| (step[0], step[1]));
    let (start, others) = (walk[0], walk[1..].iter());
    match draw.below(7) {
        0 => chain.collect(),
        1 => chain.rev().collect(),
        2 => chain.chain(others.last().map(|&end| (end, start))).collect(),
        3 => others.map(|&node| (node, node)).collect(),
        4 => others.map(|&node| (start, node)).collect(),
        5 => others.map(|&node| (node, start)).collect(),
        _ => others.map(|&node| (draw.below(nodes), node)).collect(),
    }
}

/// Old and new numbers of up to `most` pairs.
fn lists(draw: &mut Draw, own: &Own, most: i128) -> (Vec<u64>, Vec<u64>) {
    let count = draw.within(0, most) as usize;
    let mut pairs = Vec::new();
    while pairs.len() < count {
        pairs.extend(run(draw, own));
    }
    pairs.into_iter().take(count).unzip()
}

/// How often an end is moved, and where it is at last.
fn moves(old: &[u64], new: &[u64], end: i128) -> (usize, i128) {
    old.iter().zip(new).fold((0, end), |(count, at), (&old, &new)| {
        let next = step(at, old, new);
        (count + usize::from(next != at), next)
    })
}

/// The cases that a book and its lists show.
fn cases(own: &Own, old: &[u64], new: &[u64]) -> Vec<&'static str> {
    let Own { size, form, book } = own;
    let after = remapped(book, old, new);
    let backwards = |list: &[u64]| -> Vec<u64> { list.iter().rev().copied().collect() };
    let moved: Vec<_> = book.iter().flat_map(|own| [own.source, own.sink]).map(|end| (end, moves(old, new, end))).collect();
    let both: Vec<_> = book.iter().zip(&after).collect();
    let shown = [
        old.is_empty(),
        old.iter().zip(new).any(|(old, new)| old == new),
        (0..old.len()).any(|i| old[..i].contains(&old[i])),
        old.len() as i128 > size.nodes,
        moved.iter().any(|(_, (count, _))| *count > 1),
        moved.iter().any(|(end, (count, last))| *count > 0 && end == last),
        both.iter().any(|(before, after)| before.source != before.sink && after.source == after.sink),
        both.iter().any(|(before, after)| before.source == before.sink && after.source != before.source),
        after != remapped(book, &backwards(old), &backwards(new)),
        *form == Form::Wide,
        moved.iter().any(|(end, (_, last))| *end < 256 && *last > 255),
        *form == Form::Narrow && old.iter().any(|&number| number > 255),
        false,
    ];
    names(&CASES, shown)
}

/// One thing wrong.
fn wrong(draw: &mut Draw, asked: &mut Asked, own: &Own) {
    let Own { size, form, book } = own;
    let far = [size.nodes as u64, 200, 255, 256, 256, 3999, 4000, 4095, 4096, 1 << 32, 1 << 63, u64::MAX];
    let bytes = 2 + record(*form) * book.len();
    let list = if draw.once_in(2) { &mut asked.old } else { &mut asked.new };
    let count = list.len();
    match draw.below(9) {
        0 => asked.nodes = draw.pick(&WRONG_NODES),
        1 | 2 => spoil(draw, list, count, &far),
        3 => list.push(draw.below(size.nodes as u64)),
        4 => list.push(draw.pick(&far)),
        5 => list.truncate(short(count)),
        6 => asked.room = draw.pick(&[bytes - 1, 0, 1, bytes / 2]),
        7 => asked.room = bytes + draw.below(9) as usize,
        _ => asked.book = super::book::out_of_range(draw, *form, book, size.nodes),
    }
}

/// Books that are no such book, whatever is listed.
fn wrong_books(draw: &mut Draw, file: &[u8]) -> Vec<Vec<u8>> {
    let few = if file.len() > 100 { 40 } else { file.len() };
    let mut files = damaged(draw, file, 16);
    files.extend(super::book::too_many(draw));
    files.extend(cuts(file).take(few).map(<[u8]>::to_vec));
    files
}

/// A book's lists: places of all lengths, then what can go wrong.
fn listed(round: &mut Round, own: &Own, valid: &Asked) {
    round.shown(&cases(own, &valid.old, &valid.new));
    for room in [valid.room, valid.room + 1, valid.room + 9, valid.room - 1, 0] {
        call(round, &Asked { room, ..valid.clone() });
    }
    for _ in 0..12 {
        let mut asked = valid.clone();
        for _ in 0..round.draw.within(1, 3) {
            wrong(&mut round.draw, &mut asked, own);
        }
        call(round, &asked);
    }
}

pub fn round(round: &mut Round) {
    let size = draw::size(&mut round.draw, round.number);
    let form = round.draw.form_of(round.number);
    let book = draw::book(&mut round.draw, size, form);
    let file = book::file_of(form, &book);
    let own = Own { size, form, book };
    let mut asked = Asked { nodes: size.nodes as usize, room: file.len(), book: file, old: Vec::new(), new: Vec::new() };
    let most = if round.number < 20 { 2 * size.nodes + 4 } else { (2 * size.nodes + 4).min(100) };
    for most in [0, 3, most, 6] {
        (asked.old, asked.new) = lists(&mut round.draw, &own, most);
        listed(round, &own, &asked);
    }
    for nodes in WRONG_NODES.into_iter().chain([asked.nodes - 1, asked.nodes + 1, 200, 4000]) {
        call(round, &Asked { nodes, ..asked.clone() });
    }
    for book in wrong_books(&mut round.draw, &asked.book) {
        call(round, &Asked { book, ..asked.clone() });
    }
}
