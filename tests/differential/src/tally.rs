//! What was compared, counted by entry and refusal.

use crate::draw::Draw;
use crate::second::text::Refused;
use std::collections::BTreeMap;

const SHOWN: u64 = 10;

/// An entry, the refusals that it must have drawn, the files that its text must have named as refused, and the cases that its inputs must have shown.
pub struct Entry {
    pub name: &'static str,
    pub refusals: &'static [u64],
    pub files: &'static [(&'static str, &'static [u64])],
    pub cases: &'static [&'static [&'static str]],
    /// So many rounds at least.
    pub rounds: u64,
    pub round: fn(&mut Round),
}

#[derive(Default)]
pub struct Tally {
    pub calls: u64,
    pub failed: u64,
    pub refusals: BTreeMap<u64, u64>,
    pub files: BTreeMap<Refused, u64>,
    pub cases: BTreeMap<&'static str, u64>,
}

impl Tally {
    /// The refusals and cases that should have been drawn and were not.
    pub fn missing(&self, entry: &Entry) -> Vec<String> {
        let answers = entry.refusals.iter().filter(|number| !self.refusals.contains_key(number)).map(u64::to_string);
        let named = entry.files.iter().flat_map(|&(file, numbers)| numbers.iter().map(move |&number| (file, number)));
        let lines = named.filter(|refused| !self.files.contains_key(refused)).map(|(file, number)| format!("{file} {number}"));
        let cases = entry.cases.concat().into_iter().filter(|case| !self.cases.contains_key(case)).map(str::to_string);
        answers.chain(lines).chain(cases).collect()
    }

    /// The answers and lines that no paper lists for the entry. 12, of a contract's equal ends, is such a number everywhere (paper 6).
    pub fn unlisted(&self, entry: &Entry) -> Vec<String> {
        let answers = self.refusals.keys().filter(|number| **number != 0 && !entry.refusals.contains(number)).map(u64::to_string);
        let listed = |&&(file, number): &&Refused| entry.files.iter().any(|(name, numbers)| *name == file && numbers.contains(&number));
        let lines = self.files.keys().filter(|refused| !listed(refused)).map(|(file, number)| format!("{file} {number}"));
        answers.chain(lines).collect()
    }

    pub fn print(&self, entry: &Entry) {
        let counts: Vec<String> = self.refusals.iter().map(|(number, count)| format!("{number}:{count}")).collect();
        println!("{:<18} | {:>7} | {:>6} | {}", entry.name, self.calls, self.failed, counts.join(" "));
        for &(file, _) in entry.files {
            let of_file = self.files.iter().filter(|((name, _), _)| *name == file);
            let counts: Vec<String> = of_file.map(|((_, number), count)| format!("{number}:{count}")).collect();
            println!("{:<18} | {:>7} | {:>6} | {}", format!("  refused,{file}"), "", "", counts.join(" "));
        }
        if !entry.cases.is_empty() {
            let counts: Vec<String> = self.cases.iter().map(|(case, count)| format!("{case}: {count}")).collect();
            println!("{:<18} | {:>7} | {:>6} | {}", "  cases", "", "", counts.join(", "));
        }
    }
}

/// One round of an entry: its own draw, so that it can be run again alone.
pub struct Round<'a> {
    pub draw: Draw,
    pub number: u64,
    entry: &'static str,
    seed: u64,
    call: u64,
    tally: &'a mut Tally,
}

impl<'a> Round<'a> {
    pub fn new(entry: &'static str, seed: u64, number: u64, tally: &'a mut Tally) -> Self {
        let own = entry.bytes().fold(seed, |sum, byte| sum.wrapping_mul(31).wrapping_add(u64::from(byte)));
        let draw = Draw::new(own.wrapping_mul(1_000_003).wrapping_add(number));
        Round { draw, number, entry, seed, call: 0, tally }
    }

    /// Counts one call: the answers (0, or the refusal's number) and each lent cell must agree.
    pub fn compare(&mut self, proved: u64, second: u64, differences: &[Option<String>]) {
        self.call += 1;
        self.tally.calls += 1;
        *self.tally.refusals.entry(proved).or_default() += 1;
        let cells: Vec<&String> = differences.iter().flatten().collect();
        if proved == second && cells.is_empty() {
            return;
        }
        self.tally.failed += 1;
        if self.tally.failed <= SHOWN {
            println!(
                "FAILED {}: seed {}, round {}, call {}: proved answers {proved}, second {second}; {cells:?}",
                self.entry, self.seed, self.number, self.call
            );
        }
    }

    /// Two answers of the second implementation that must be the same; the proved ones were compared with them.
    pub fn same(&mut self, holds: bool, what: &str) {
        self.holds(holds, &format!("{what}: the answers differ"));
    }

    /// What must hold of several answers together.
    pub fn holds(&mut self, holds: bool, wrong: &str) {
        if !holds {
            self.tally.failed += 1;
            println!("FAILED {}: seed {}, round {}: {wrong}", self.entry, self.seed, self.number);
        }
    }

    /// Counts a file that a text names as refused.
    pub fn named(&mut self, refused: Option<Refused>) {
        if let Some(refused) = refused {
            *self.tally.files.entry(refused).or_default() += 1;
        }
    }

    /// Counts the cases that an input shows.
    pub fn shown(&mut self, cases: &[&'static str]) {
        for case in cases {
            *self.tally.cases.entry(case).or_default() += 1;
        }
    }
}
