use super::book::{check_book, contracts, NARROW, WIDE};
use super::grid::{read_up_to, Header};
use super::test::{carry, verdict, Overload};
use super::*;

const REPORT_BYTES: usize = 2048;
const STATEMENT_BYTES: usize = 29_085;
/// The longest grid that a text takes, and as many factors as it can have.
const GRID_BYTES: usize = 32_768;
const FACTORS: usize = 14_561;

/// Text put into a lent buffer that has room for the longest.
struct Page<'a> {
    text: &'a mut [u8],
    at: usize,
}

impl Page<'_> {
    fn put(&mut self, words: &[u8]) {
        self.text[self.at..self.at + words.len()].copy_from_slice(words);
        self.at += words.len();
    }

    fn put_number(&mut self, number: u64) {
        let mut digits = [0; 20];
        let mut first = digits.len();
        let mut rest = number;
        loop {
            first -= 1;
            digits[first] = b'0' + (rest % 10) as u8;
            rest /= 10;
            if rest == 0 {
                break;
            }
        }
        self.put(&digits[first..]);
    }

    fn put_signed(&mut self, number: i64) {
        if number < 0 {
            self.put(b"-");
        }
        self.put_number(number.unsigned_abs());
    }

    fn refused(mut self, file: &[u8], refusal: Refusal) -> usize {
        self.put(b"refused,");
        self.put(file);
        self.put(b",");
        self.put_number(refusal);
        self.put(b"\n");
        self.at
    }

    fn put_figures(&mut self, overload: Overload) {
        if overload.set == 0 {
            return self.put(b"pass,0,,,\n");
        }
        self.put(b"fail,");
        self.put_number(overload.count as u64);
        self.put(b",");
        self.put_number(overload.lowest as u64);
        self.put(b",");
        self.put_signed(overload.excess);
        let mut mark: &[u8] = b",";
        for k in (0..64).filter(|k| overload.set >> k & 1 == 1) {
            self.put(mark);
            self.put_number(k);
            mark = b" ";
        }
        self.put(b"\n");
    }
}

impl Page<'_> {
    fn put_contracts<const BYTES: usize>(&mut self, period: u64, book: &[u8], cents: &[i64], priced: &[u64]) {
        for (i, ((c, &cents), &set)) in contracts::<BYTES>(book).zip(cents).zip(priced).enumerate() {
            if c.period == period {
                self.put_number(i as u64);
                self.put(b",");
                self.put_number(c.holder);
                self.put(if c.option { b",OPT," } else { b",OBL," });
                self.put_signed(cents);
                self.put(b",");
                self.put_number(u64::from(set.count_ones()));
                self.put(b"\n");
            }
        }
    }
}

/// Reads the grid and checks the book for it, whose form it gives; a refusal comes with the file's name.
fn read_both(
    grid_file: &[u8],
    book_file: &[u8],
    limits: &mut [u64],
    factors: &mut [i64],
) -> Result<(Header, Form), (&'static [u8], Refusal)> {
    let header = read_up_to(GRID_BYTES, grid_file, limits, factors).map_err(|refusal| (&b"grid"[..], refusal))?;
    let (_, form) = check_book(header.nodes, book_file).map_err(|refusal| (&b"book"[..], refusal))?;
    Ok((header, form))
}

#[inline(never)]
pub fn write_report(grid_file: &[u8], book_file: &[u8], text: &mut [u8]) -> Result<usize, Refusal> {
    let mut page = Page { text: text.get_mut(..REPORT_BYTES).ok_or(SHORT_TABLE)?, at: 0 };
    let mut limits = [0; MAX_CONSTRAINTS];
    let mut factors = [0; FACTORS];
    let (Header { constraints, .. }, form) = match read_both(grid_file, book_file, &mut limits, &mut factors) {
        Ok(read) => read,
        Err((file, refusal)) => return Ok(page.refused(file, refusal)),
    };
    page.put(b"period,process,verdict,overloaded,lowest,excess,constraints\n");
    for (period, name) in [(0, &b"off-peak,"[..]), (1, b"on-peak,")] {
        let flows = carry(constraints, period, &factors, form, book_file);
        for (process, process_name) in [(0, &b"annual,"[..]), (1, b"lt,"), (2, b"monthly,")] {
            page.put(name);
            page.put(process_name);
            page.put_figures(verdict(process, &limits[..constraints], &flows));
        }
    }
    Ok(page.at)
}

#[inline(never)]
pub fn write_statement(grid_file: &[u8], book_file: &[u8], price_file: &[u8], text: &mut [u8]) -> Result<usize, Refusal> {
    let mut page = Page { text: text.get_mut(..STATEMENT_BYTES).ok_or(SHORT_TABLE)?, at: 0 };
    let mut limits = [0; MAX_CONSTRAINTS];
    let mut factors = [0; FACTORS];
    let (Header { nodes, constraints, .. }, form) = match read_both(grid_file, book_file, &mut limits, &mut factors) {
        Ok(read) => read,
        Err((file, refusal)) => return Ok(page.refused(file, refusal)),
    };
    let mut prices = [0; MAX_CONSTRAINTS];
    let period = match read_prices(constraints, price_file, &mut prices) {
        Ok(period) => period,
        Err(refusal) => return Ok(page.refused(b"prices", refusal)),
    };
    let (mut cents, mut priced) = ([0; MAX_CONTRACTS], [0; MAX_CONTRACTS]);
    let totals = settle_hour(nodes, constraints, period, &factors, &prices, book_file, &mut cents, &mut priced)?;
    page.put(b"contract,holder,kind,cents,priced\n");
    match form {
        Form::Narrow => page.put_contracts::<NARROW>(period, book_file, &cents, &priced),
        Form::Wide => page.put_contracts::<WIDE>(period, book_file, &cents, &priced),
    }
    page.put(b"sum,");
    page.put_signed(totals.sum);
    page.put(b"\nexact,");
    page.put_signed(totals.whole);
    page.put(b",");
    page.put_number(totals.parts);
    page.put(b"\n");
    Ok(page.at)
}
