//! The cases of the running test: what runs show.

use super::*;
use crate::second::book::Contract;
use crate::second::running::TIERS;
use crate::second::test::{excess, of_period};
use std::collections::BTreeSet;

/// What runs show.
pub const CASES: [&str; 31] = [
    "annual, off-peak",
    "annual, on-peak",
    "Tier LT, off-peak",
    "Tier LT, on-peak",
    "monthly, off-peak",
    "monthly, on-peak",
    "no constraints",
    "64 constraints",
    "4,000 nodes",
    "a flow at its released limit",
    "21 for a thousandth more",
    "21 at the last constraint alone",
    "21 first, held after another award",
    "the other period's award",
    "the other period's award beyond a released limit",
    "an option whose counter-flow counts 0",
    "an obligation whose counter-flow counts",
    "equal ends",
    "1,000 awards",
    "10 for a 1,001st",
    "10 before the fields",
    "a field before 21",
    "a mark at no award",
    "a mark moved",
    "two marks at one number, both kept",
    "a later mark dropped",
    "a lower tier's mark dropped",
    "returned to twice",
    "20 for a dropped mark",
    "20 for a tier never marked",
    "opened anew",
];

/// What has been seen of a run.
pub struct Seen {
    shown: BTreeSet<usize>,
    /// Rows that drew 21.
    pub overloads: Vec<[u64; 6]>,
    dropped: [bool; TIERS],
    last: Option<u64>,
}

impl Seen {
    pub fn new(own: &Own) -> Self {
        let mut seen = Seen { shown: BTreeSet::new(), overloads: Vec::new(), dropped: [false; TIERS], last: None };
        seen.shown.insert((2 * own.process + own.period) as usize);
        seen.show(6, own.constraints == 0);
        seen.show(7, own.constraints == 64);
        seen.show(8, own.nodes == 4000);
        seen
    }

    fn show(&mut self, case: usize, shown: bool) {
        if shown {
            self.shown.insert(case);
        }
    }

    pub fn cases(&self) -> Vec<&'static str> {
        self.shown.iter().map(|&case| CASES[case]).collect()
    }

    pub fn added(&mut self, before: &Running, after: &Running, row: [u64; 6], answer: Answer<()>) {
        self.last = None;
        match answer {
            Ok(()) => self.held(before, after, row),
            Err(21) => self.overloaded(before, row),
            Err(10) => {
                self.show(19, before.awards.len() == 1000);
                self.show(20, field_fails(before, row));
            }
            Err(_) => {
                self.show(21, !field_fails(before, [0, row[1], row[2], row[3], row[4], 1]) && row[1] == before.period && !fits(before, row))
            }
        }
    }

    fn held(&mut self, before: &Running, after: &Running, row: [u64; 6]) {
        let own = after.awards[before.awards.len()];
        let counted = after.counted(after.awards.len());
        let constraints = 0..after.grid.limits.len();
        let raw = |k: usize| (factor(after, own.source, k) - factor(after, own.sink, k)) * own.quantity;
        let of_period = own.period == after.period.into();
        self.show(9, of_period && constraints.clone().any(|k| raw(k) > 0 && excess(&after.grid, after.process, &counted, k) == 0));
        self.show(12, self.overloads.contains(&row));
        self.show(13, !of_period);
        self.show(14, !of_period && !fits(before, row));
        self.show(15, of_period && own.kind == 1 && constraints.clone().any(|k| raw(k) < 0));
        self.show(16, of_period && own.kind == 0 && constraints.clone().any(|k| raw(k) < 0));
        self.show(17, own.source == own.sink);
        self.show(18, after.awards.len() == 1000);
    }

    fn overloaded(&mut self, before: &Running, row: [u64; 6]) {
        let less = [row[0], row[1], row[2], row[3], row[4], row[5] - 1];
        self.show(10, row[5] > 1 && fits(before, less));
        let over = over(before, row);
        self.show(11, over.len() == 1 && over[0] > 0 && over[0] + 1 == before.grid.limits.len());
        if self.overloads.len() < 20 {
            self.overloads.push(row);
        }
    }

    pub fn marked(&mut self, before: &Running, tier: u64, answer: Answer<()>) {
        self.last = None;
        if answer.is_ok() {
            let own = before.marks[tier as usize - 1];
            self.show(22, before.awards.is_empty());
            self.show(23, own.is_some_and(|held| held != before.awards.len()));
            self.dropped[tier as usize - 1] = false;
        }
    }

    pub fn returned(&mut self, before: &Running, after: &Running, tier: u64, answer: Answer<()>) {
        let place = tier.wrapping_sub(1) as usize;
        if answer.is_err() {
            self.show(28, place < TIERS && self.dropped[place]);
            self.show(29, place < TIERS && !self.dropped[place]);
            return;
        }
        let lost: Vec<usize> = (0..TIERS).filter(|&other| before.marks[other].is_some() && after.marks[other].is_none()).collect();
        self.show(
            24,
            (0..TIERS).any(|other| other != place && after.marks[other] == after.marks[place]) && before.awards.len() > after.awards.len(),
        );
        self.show(25, !lost.is_empty());
        self.show(26, lost.iter().any(|&other| other < place));
        self.show(27, self.last == Some(tier));
        lost.into_iter().for_each(|other| self.dropped[other] = true);
        self.last = Some(tier);
    }

    pub fn opened(&mut self, before: &Running) {
        self.show(30, !before.awards.is_empty());
        self.dropped = [false; TIERS];
        self.last = None;
    }
}

fn factor(running: &Running, node: i128, constraint: usize) -> i128 {
    running.grid.factors[node as usize][constraint]
}

fn field_fails(running: &Running, row: [u64; 6]) -> bool {
    let nodes = running.grid.nodes as u64;
    row[0] > 1 || row[1] > 1 || row[2] > 1023 || row[3] >= nodes || row[4] >= nodes || row[5] == 0 || row[5] > 1_000_000
}

/// The constraints beyond their released limits with an award of the period's contracts.
fn over(running: &Running, row: [u64; 6]) -> Vec<usize> {
    let [kind, _, holder, source, sink, quantity] = row.map(i128::from);
    let award = Contract { kind, period: running.period.into(), holder, source, sink, quantity };
    let with = of_period(&[&running.awards[..], &[award]].concat(), running.period);
    (0..running.grid.limits.len()).filter(|&k| excess(&running.grid, running.process, &with, k) > 0).collect()
}

/// Whether an award would be held if it were of the period.
fn fits(running: &Running, row: [u64; 6]) -> bool {
    over(running, row).is_empty()
}
