use super::*;

/// A contract of a book's file.
#[derive(Clone, Copy)]
pub struct Contract {
    pub option: bool,
    pub period: u64,
    pub holder: u64,
    pub source: usize,
    pub sink: usize,
    pub quantity: u64,
}

/// A contract's bytes, six or seven: the length that the functions over a form's contracts are made for.
pub const NARROW: usize = 6;
pub const WIDE: usize = 7;

/// The bits of an end where a contract has so many bytes.
const fn end_bits(bytes: usize) -> u32 {
    4 * bytes as u32 - 16
}

/// A contract's bytes as one number.
#[inline]
pub fn record<const BYTES: usize>(bytes: &[u8]) -> u64 {
    let mut record = [0; 8];
    record[8 - BYTES..].copy_from_slice(bytes);
    u64::from_be_bytes(record)
}

#[inline]
pub fn store<const BYTES: usize>(bytes: &mut [u8], record: u64) {
    bytes.copy_from_slice(&record.to_be_bytes()[8 - BYTES..]);
}

impl Contract {
    #[inline]
    fn from_bytes<const BYTES: usize>(bytes: &[u8]) -> Self {
        let record = record::<BYTES>(bytes);
        let end = end_bits(BYTES);
        Contract {
            option: record >> (31 + 2 * end) == 1,
            period: record >> (30 + 2 * end) & 1,
            holder: record >> (20 + 2 * end) & 0x3ff,
            source: (record >> (20 + end) & ((1 << end) - 1)) as usize,
            sink: (record >> 20 & ((1 << end) - 1)) as usize,
            quantity: record & 0xf_ffff,
        }
    }
}

pub fn check_ends(nodes: u64, source: u64, sink: u64, quantity: u64) -> Result<(), Refusal> {
    demand(source < nodes && sink < nodes, NODE_NUMBER)?;
    demand((1..=1_000_000).contains(&quantity), QUANTITY_RANGE)
}

/// The contracts of a book's file that has been checked.
pub fn contracts<const BYTES: usize>(book: &[u8]) -> impl ExactSizeIterator<Item = Contract> + '_ {
    book[2..].chunks_exact(BYTES).map(Contract::from_bytes::<BYTES>)
}

fn check_contracts<const BYTES: usize>(nodes: usize, book: &[u8], count: usize) -> Result<(), Refusal> {
    demand(book.len() == 2 + BYTES * count, FILE_LENGTH)?;
    for c in contracts::<BYTES>(book) {
        check_ends(nodes as u64, c.source as u64, c.sink as u64, c.quantity)?;
    }
    Ok(())
}

/// The book's own checks; gives the number of contracts and the form.
pub fn check_book(nodes: usize, book: &[u8]) -> Result<(usize, Form), Refusal> {
    let [high, low, ..] = book else {
        return Err(SHORT_FILE);
    };
    let count = usize::from(*high) << 2 | usize::from(low >> 6);
    demand(count <= MAX_CONTRACTS, CONTRACT_COUNT)?;
    match low & 0x3f {
        0 => check_contracts::<NARROW>(nodes, book, count).map(|()| (count, Form::Narrow)),
        0x3f => check_contracts::<WIDE>(nodes, book, count).map(|()| (count, Form::Wide)),
        _ => Err(SPARE_BITS),
    }
}

fn fill_rows<const BYTES: usize>(file: &[u8], rows: &mut [u64]) {
    for (row, c) in rows.chunks_exact_mut(6).zip(contracts::<BYTES>(file)) {
        row.copy_from_slice(&[u64::from(c.option), c.period, c.holder, c.source as u64, c.sink as u64, c.quantity]);
    }
}

#[inline(never)]
pub fn read_book(nodes: usize, file: &[u8], book: &mut [u64]) -> Result<(usize, Form), Refusal> {
    check_nodes(nodes)?;
    let (count, form) = check_book(nodes, file)?;
    let rows = book.get_mut(..6 * count).ok_or(SHORT_TABLE)?;
    match form {
        Form::Narrow => fill_rows::<NARROW>(file, rows),
        Form::Wide => fill_rows::<WIDE>(file, rows),
    }
    Ok((count, form))
}

/// The numbers that an end may have: below the node count, and held by its field.
pub fn ends_below(form: Form, nodes: usize) -> u64 {
    match form {
        Form::Narrow => nodes.min(256) as u64,
        Form::Wide => nodes as u64,
    }
}

/// A contract's cells as one number.
#[inline]
fn row_record<const BYTES: usize>([kind, period, holder, source, sink, quantity]: [u64; 6]) -> u64 {
    let end = end_bits(BYTES);
    let start = kind << (31 + 2 * end) | period << (30 + 2 * end) | holder << (20 + 2 * end);
    start | source << (20 + end) | sink << 20 | quantity
}

fn store_rows<const BYTES: usize>(rows: &[u64], file: &mut [u8]) {
    for (bytes, row) in file[2..].chunks_exact_mut(BYTES).zip(rows.chunks_exact(6)) {
        let &[kind, period, holder, source, sink, quantity] = row else { unreachable!() };
        store::<BYTES>(bytes, row_record::<BYTES>([kind, period, holder, source, sink, quantity]));
    }
}

/// Contracts stored one behind the other.
pub fn store_contracts<const BYTES: usize>(rows: impl Iterator<Item = [u64; 6]>, file: &mut [u8]) {
    for (bytes, row) in file.chunks_exact_mut(BYTES).zip(rows) {
        store::<BYTES>(bytes, row_record::<BYTES>(row));
    }
}

#[inline(never)]
pub fn write_book(form: Form, nodes: usize, contracts: usize, book: &[u64], file: &mut [u8]) -> Result<usize, Refusal> {
    check_nodes(nodes)?;
    demand(contracts <= MAX_CONTRACTS, CONTRACT_COUNT)?;
    let rows = book.get(..6 * contracts).ok_or(SHORT_TABLE)?;
    let below = ends_below(form, nodes);
    for row in rows.chunks_exact(6) {
        let &[kind, period, holder, source, sink, quantity] = row else { unreachable!() };
        demand(kind <= 1 && period <= 1, PERIOD_OR_KIND)?;
        demand(holder <= 1023, HOLDER_RANGE)?;
        check_ends(below, source, sink, quantity)?;
    }
    let (bytes, spare) = if form == Form::Narrow { (NARROW, 0) } else { (WIDE, 0x3f) };
    let size = 2 + bytes * contracts;
    let file = file.get_mut(..size).ok_or(SHORT_TABLE)?;
    file[..2].copy_from_slice(&((contracts as u16) << 6 | spare).to_be_bytes());
    match form {
        Form::Narrow => store_rows::<NARROW>(rows, file),
        Form::Wide => store_rows::<WIDE>(rows, file),
    }
    Ok(size)
}

pub fn check_listed(below: u64, list: &[u64]) -> Result<(), Refusal> {
    demand(list.iter().all(|&node| node < below), NODE_NUMBER)
}

/// What each node becomes, with a cell for every number that an end's field holds. The pairs are taken from the last to the first, so that the cell of a
/// pair's new node has what the pairs after it make of that node. An old number that no field holds is no contract's end.
fn moved_nodes<const CELLS: usize>(old: &[u64], new: &[u64]) -> [u16; CELLS] {
    let mut moved = std::array::from_fn(|node| node as u16);
    for (&old, &new) in old.iter().zip(new).rev() {
        if (old as usize) < CELLS {
            moved[old as usize] = moved[new as usize];
        }
    }
    moved
}

fn move_ends<const BYTES: usize, const CELLS: usize>(old: &[u64], new: &[u64], book: &[u8], file: &mut [u8]) {
    let moved = moved_nodes::<CELLS>(old, new);
    let (end, mask) = (end_bits(BYTES), CELLS as u64 - 1);
    for (to, from) in file[2..].chunks_exact_mut(BYTES).zip(book[2..].chunks_exact(BYTES)) {
        let record = record::<BYTES>(from);
        let source = u64::from(moved[(record >> (20 + end) & mask) as usize]);
        let sink = u64::from(moved[(record >> 20 & mask) as usize]);
        store::<BYTES>(to, record & !(mask << (20 + end) | mask << 20) | source << (20 + end) | sink << 20);
    }
}

#[inline(never)]
pub fn remap_book(nodes: usize, book: &[u8], old: &[u64], new: &[u64], file: &mut [u8]) -> Result<usize, Refusal> {
    check_nodes(nodes)?;
    let (_, form) = check_book(nodes, book)?;
    check_listed(nodes as u64, old)?;
    check_listed(ends_below(form, nodes), new)?;
    demand(old.len() == new.len(), SHORT_TABLE)?;
    let size = book.len();
    let file = file.get_mut(..size).ok_or(SHORT_TABLE)?;
    file[..2].copy_from_slice(&book[..2]);
    match form {
        Form::Narrow => move_ends::<NARROW, 256>(old, new, book, file),
        Form::Wide => move_ends::<WIDE, 4096>(old, new, book, file),
    }
    Ok(size)
}
