//! The running test: runs of operations, each held against the awards and marks worked out afresh, with every cell of the three buffers and those around them;
//! faults alone and in pairs; cells that no operation gave.

pub mod altered;
mod cases;
pub mod faults;
pub mod orders;

use super::*;
use crate::draw::{self, Size};
use crate::library::{self, Opening, State};
use crate::second::running::{Running, AWARDS, FLOWS, NUMBERS};
use crate::second::test::{flow, released};
use crate::tally::Round;
use cases::Seen;

pub use cases::CASES;

const MARGIN: usize = 5;
/// Lengths of the three buffers that are just enough.
const ROOMS: [usize; 3] = [AWARDS, NUMBERS, FLOWS];

/// What a running test is opened on.
#[derive(Clone)]
pub struct Own {
    nodes: usize,
    constraints: usize,
    process: u64,
    period: u64,
    limits: Vec<u64>,
    factors: Vec<i64>,
}

impl Own {
    fn new(draw: &mut Draw, size: Size) -> Self {
        let mut grid = draw::grid(draw, size);
        if draw.once_in(2) {
            // limits that a few awards fill
            grid.limits.iter_mut().for_each(|limit| *limit = draw.pick(&[1, 6_000, 8_000, 100_000, 1_000_000]));
        }
        let limits = table(draw, &grid.limits, |limit| limit as u64, u64::MAX);
        let factors = table(draw, &grid.factor_cells(), |factor| factor as i64, i64::MIN);
        let (process, period) = (draw.below(3), draw.below(2));
        Own { nodes: size.nodes as usize, constraints: size.constraints as usize, process, period, limits, factors }
    }

    fn opening(&self) -> Opening<'_> {
        let Own { nodes, constraints, process, period, limits, factors } = self;
        Opening { nodes: *nodes, constraints: *constraints, process: *process, period: *period, limits, factors }
    }

    fn size(&self) -> Size {
        Size { nodes: self.nodes as i128, constraints: self.constraints as i128, contracts: 1 }
    }
}

#[derive(Clone, PartialEq)]
struct Buffers {
    awards: Vec<u64>,
    numbers: Vec<u64>,
    flows: Vec<i64>,
}

impl Buffers {
    /// Any cells.
    fn new(draw: &mut Draw) -> Self {
        let [awards, numbers, flows] = ROOMS.map(|room| (0..room + 3 * MARGIN).map(|_| draw.next()).collect::<Vec<u64>>());
        Buffers { awards, numbers, flows: flows.into_iter().map(|cell| cell as i64).collect() }
    }

    /// So many cells of each, within others.
    fn state(&mut self, rooms: [usize; 3]) -> State<'_> {
        State {
            awards: &mut self.awards[MARGIN..][..rooms[0]],
            numbers: &mut self.numbers[MARGIN..][..rooms[1]],
            flows: &mut self.flows[MARGIN..][..rooms[2]],
        }
    }
}

/// A state that is lent call after call, beside what its cells must be.
struct Kept {
    proved: Buffers,
    second: Buffers,
    rooms: [usize; 3],
}

fn different<T: PartialEq + std::fmt::Display>(name: &str, proved: &[T], second: &[T]) -> Option<String> {
    if proved == second {
        return None;
    }
    let at = (0..second.len()).find(|&at| proved[at] != second[at])?;
    Some(format!("{name}[{}]: proved {}, second {}", at as i128 - MARGIN as i128, proved[at], second[at]))
}

impl Kept {
    fn new(draw: &mut Draw) -> Self {
        let cells = Buffers::new(draw);
        let rooms = ROOMS.map(|room| room + draw.below(3) as usize);
        Kept { proved: cells.clone(), second: cells, rooms }
    }

    /// Puts the same into both.
    fn alter(&mut self, change: impl Fn(&mut State)) {
        let rooms = self.rooms;
        change(&mut self.proved.state(rooms));
        change(&mut self.second.state(rooms));
    }

    /// One call of each side, into so many cells, and every cell compared.
    fn call<T>(
        &mut self,
        round: &mut Round,
        rooms: [usize; 3],
        proved: impl FnOnce(&mut State) -> u64,
        second: impl FnOnce(&mut State) -> Answer<T>,
    ) -> Answer<T> {
        let answer = second(&mut self.second.state(rooms));
        let number = proved(&mut self.proved.state(rooms));
        let (ours, theirs) = (&self.proved, &self.second);
        let differences = [
            different("awards", &ours.awards, &theirs.awards),
            different("numbers", &ours.numbers, &theirs.numbers),
            different("flows", &ours.flows, &theirs.flows),
        ];
        round.compare(number, *answer.as_ref().err().unwrap_or(&0), &differences);
        if differences.iter().any(Option::is_some) {
            self.proved = self.second.clone();
        }
        answer
    }

    fn open(&mut self, round: &mut Round, own: &Own) -> Answer<Running> {
        let opening = own.opening();
        self.call(round, self.rooms, |state| library::open_running(&opening, state), |state| Running::open(&opening, state))
    }

    fn add(&mut self, round: &mut Round, own: &Own, running: &mut Running, row: &[u64]) -> Answer<()> {
        let opening = own.opening();
        self.call(round, self.rooms, |state| library::add_award(&opening, row, state), |state| running.add(&opening, row, state))
    }

    fn mark(&mut self, round: &mut Round, running: &mut Running, tier: u64) -> Answer<()> {
        self.call(round, self.rooms, |state| library::mark_tier(tier, state), |state| running.mark(tier, state))
    }

    fn return_to(&mut self, round: &mut Round, running: &mut Running, tier: u64) -> Answer<()> {
        self.call(round, self.rooms, |state| library::return_to_tier(tier, state), |state| running.return_to(tier, state))
    }
}

/// A quantity by which a flow comes to its released limit, or as near as it can, or a thousandth more.
fn near(draw: &mut Draw, running: &Running, row: &mut [u64; 6]) {
    let counted = running.counted(running.awards.len());
    let (source, sink) = (row[3] as usize, row[4] as usize);
    let factor = |node: usize, k: usize| running.grid.factors[node][k];
    let rising: Vec<usize> = (0..running.grid.limits.len()).filter(|&k| factor(source, k) > factor(sink, k)).collect();
    if rising.is_empty() {
        return;
    }
    let k = draw.pick(&rising);
    let room = released(&running.grid, running.process, k) - flow(&running.grid, &counted, k);
    let most = room.div_euclid(factor(source, k) - factor(sink, k));
    row[5] = (most + i128::from(draw.once_in(3))).clamp(1, 1_000_000) as u64;
}

/// A row whose fields are in range, mostly of the period.
fn award(draw: &mut Draw, own: &Own, running: &Running) -> [u64; 6] {
    let mut row = draw::book(draw, own.size(), Form::Wide)[0].row().map(|value| value as u64);
    if draw.once_in(2) {
        row[1] = own.period;
    }
    if draw.once_in(3) {
        row[5] = draw.pick(&[1, 2, 10, 100]);
    } else if draw.once_in(2) {
        near(draw, running, &mut row);
    }
    row
}

/// One field out of range, or two.
fn spoiled(draw: &mut Draw, own: &Own, mut row: [u64; 6]) -> [u64; 6] {
    for _ in 0..draw.within(1, 2) {
        let far = own.nodes as u64;
        match draw.below(6) {
            0 => row[0] = draw.pick(&[2, 3, 256, 1 << 32, u64::MAX]),
            1 => row[1] = draw.pick(&WRONG_PERIODS),
            2 => row[2] = draw.pick(&[1024, 1025, 2048, 1 << 32, u64::MAX]),
            3 => row[3] = draw.pick(&[far, far + 1, far + 4096, 1 << 32, u64::MAX]),
            4 => row[4] = draw.pick(&[far, far + 1, far + 4096, 1 << 32, u64::MAX]),
            _ => row[5] = draw.pick(&[0, 1_000_001, 1 << 20, 1 << 32, u64::MAX]),
        }
    }
    row
}

pub const OTHER_TIERS: [u64; 8] = [0, 5, 6, 64, 256, 1 << 32, 1 << 63, u64::MAX];

/// Mostly one of the four.
fn tier(draw: &mut Draw) -> u64 {
    if draw.once_in(12) {
        draw.pick(&OTHER_TIERS)
    } else {
        1 + draw.below(4)
    }
}

/// A running test on its way: both sides, and what has been seen.
struct Run {
    own: Own,
    kept: Kept,
    running: Running,
    seen: Seen,
}

impl Run {
    fn open(round: &mut Round, own: Own) -> Option<Self> {
        let mut kept = Kept::new(&mut round.draw);
        let running = kept.open(round, &own).ok()?;
        let seen = Seen::new(&own);
        Some(Run { own, kept, running, seen })
    }

    fn add(&mut self, round: &mut Round, row: [u64; 6]) -> Answer<()> {
        let before = self.running.clone();
        let answer = self.kept.add(round, &self.own, &mut self.running, &row);
        self.seen.added(&before, &self.running, row, answer);
        answer
    }

    fn mark(&mut self, round: &mut Round, tier: u64) {
        let before = self.running.clone();
        let answer = self.kept.mark(round, &mut self.running, tier);
        self.seen.marked(&before, tier, answer);
    }

    fn return_to(&mut self, round: &mut Round, tier: u64) {
        let before = self.running.clone();
        let answer = self.kept.return_to(round, &mut self.running, tier);
        self.seen.returned(&before, &self.running, tier, answer);
    }

    /// Any operation, mostly an award.
    fn step(&mut self, round: &mut Round) {
        match round.draw.below(40) {
            0 => {
                let opened = self.kept.open(round, &self.own);
                self.seen.opened(&self.running);
                self.running = opened.unwrap_or_else(|_| self.running.clone());
            }
            1..=8 => {
                let tier = tier(&mut round.draw);
                self.mark(round, tier)
            }
            9..=15 => {
                let tier = tier(&mut round.draw);
                self.return_to(round, tier)
            }
            16 | 17 => {
                let row = award(&mut round.draw, &self.own, &self.running);
                let row = spoiled(&mut round.draw, &self.own, row);
                let _ = self.add(round, row);
            }
            18..=20 if !self.seen.overloads.is_empty() => {
                let row = round.draw.pick(&self.seen.overloads);
                let _ = self.add(round, row);
            }
            _ => {
                let row = award(&mut round.draw, &self.own, &self.running);
                let _ = self.add(round, row);
            }
        }
    }

    /// Up to so many awards: one that is refused by 21 is the other period's then.
    fn fill(&mut self, round: &mut Round, held: usize) {
        while self.running.awards.len() < held {
            let mut row = award(&mut round.draw, &self.own, &self.running);
            if self.add(round, row).is_err() {
                row[1] = 1 - self.own.period;
                let _ = self.add(round, row);
            }
            if round.draw.once_in(50) {
                let tier = tier(&mut round.draw);
                self.mark(round, tier);
            }
        }
    }

    /// The awards held, as they stand, make a book of either form that has the flows and the count, and passes.
    fn held_is_a_book(&mut self, round: &mut Round) {
        let Own { nodes, constraints, process, period, limits, factors } = &self.own;
        let held = self.running.awards.len();
        let narrow = self.running.awards.iter().all(|award| award.source.max(award.sink) < 256);
        let state = self.kept.proved.state(self.kept.rooms);
        for form in if narrow { 0..2 } else { 1..2 } {
            let (mut file, mut bytes) = (vec![0; 7002], 0);
            let mut number = library::write_book(form, *nodes, held, state.awards, &mut file, &mut bytes);
            let book = &file[..bytes];
            let (mut set, mut count, mut lowest, mut excess, mut counted) = (7, 7, 7, 7, 7);
            number += library::test_book(
                *nodes,
                *constraints,
                *process,
                *period,
                limits,
                factors,
                book,
                &mut set,
                &mut count,
                &mut lowest,
                &mut excess,
            );
            let mut flows = vec![7; *constraints];
            number += library::find_flows(*nodes, *constraints, *period, limits, factors, book, &mut flows, &mut counted);
            round.holds(number == 0 && (set, count, lowest, excess) == (0, 0, 0, 0), "the awards held do not pass the test");
            round.holds(flows == state.flows[..*constraints] && counted as u64 == state.numbers[1], "the awards held have other flows");
        }
    }
}

pub fn round(round: &mut Round) {
    let size = draw::size(&mut round.draw, round.number);
    let own = Own::new(&mut round.draw, size);
    let Some(mut run) = Run::open(round, own) else { return };
    if size.contracts > 4 {
        run.fill(round, size.contracts as usize);
    }
    for _ in 0..round.draw.within(5, 60) {
        run.step(round);
    }
    run.held_is_a_book(round);
    if size.contracts == 1000 {
        // whatever was dropped since: the last award that there is room for, and one more
        run.fill(round, 1000);
        for spoil in [false, true, true] {
            let mut row = award(&mut round.draw, &run.own, &run.running);
            if spoil {
                row = spoiled(&mut round.draw, &run.own, row);
            }
            let _ = run.add(round, row);
        }
        run.mark(round, 4);
        run.held_is_a_book(round);
    }
    round.shown(&run.seen.cases());
}
