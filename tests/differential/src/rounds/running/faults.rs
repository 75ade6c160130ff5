//! Opening and adding: every fault alone, each with every other, lengths around those that are enough, and what is handed in being no longer the opening's.

use super::*;
use crate::second::running::add_by_cells;

/// What opening and adding are handed, beside the state.
#[derive(Clone)]
struct Asked {
    own: Own,
    award: Vec<u64>,
    rooms: [usize; 3],
}

/// A check, and what fails at it and at no earlier one.
type Fault = (u64, fn(&mut Draw, &mut Asked));

/// Those that opening and adding have in common, in their order.
const TABLES: [Fault; 10] = [
    (2, |draw, asked| asked.own.nodes = draw.pick(&WRONG_NODES)),
    (3, |draw, asked| asked.own.constraints = draw.pick(&WRONG_CONSTRAINTS)),
    (16, |draw, asked| asked.own.process = draw.pick(&WRONG_PROCESSES)),
    (17, |draw, asked| asked.own.period = draw.pick(&WRONG_PERIODS)),
    (9, |draw, asked| asked.own.limits.truncate(draw.below(asked.own.constraints.clamp(1, 64) as u64) as usize)),
    (9, |_, asked| asked.own.factors.truncate(asked.own.nodes.wrapping_mul(asked.own.constraints).wrapping_sub(1).min(1 << 20))),
    (9, |draw, asked| asked.rooms[0] = draw.pick(&[0, 1, AWARDS - 6, AWARDS - 1])),
    (9, |draw, asked| asked.rooms[1] = draw.pick(&[0, 1, 2, 11, NUMBERS - 1])),
    (9, |draw, asked| asked.rooms[2] = draw.pick(&[0, 1, 63, 64, 256, FLOWS - 1])),
    (6, |draw, asked| spoil(draw, &mut asked.own.limits, asked.own.constraints, &WRONG_LIMITS)),
];
const FACTOR: Fault =
    (7, |draw, asked| spoil(draw, &mut asked.own.factors, asked.own.nodes.saturating_mul(asked.own.constraints), &WRONG_FACTORS));
/// Those of the award, the last ones of adding.
const AWARD: [Fault; 8] = [
    (17, |draw, asked| put(asked, 0, draw.pick(&[2, 3, 256, 1 << 32, 1 << 63, u64::MAX]))),
    (17, |draw, asked| put(asked, 1, draw.pick(&WRONG_PERIODS))),
    (18, |draw, asked| put(asked, 2, draw.pick(&[1024, 1025, 4096, 1 << 32, 1 << 63, u64::MAX]))),
    (11, |draw, asked| put(asked, 3, draw.pick(&[4000, 4095, 4096, 1 << 32, 1 << 63, u64::MAX]))),
    (11, |draw, asked| put(asked, 4, draw.pick(&[4000, 4095, 4096, 1 << 32, 1 << 63, u64::MAX]))),
    (11, |_, asked| put(asked, 4, asked.own.nodes as u64)),
    (13, |_, asked| put(asked, 5, 0)),
    (13, |draw, asked| put(asked, 5, draw.pick(&[1_000_001, 1 << 20, 1 << 32, 1 << 63, u64::MAX]))),
];

fn put(asked: &mut Asked, at: usize, value: u64) {
    if let Some(cell) = asked.award.get_mut(at) {
        *cell = value;
    }
}

/// The faults of opening in the order of their checks; a grid without constraints has none in its tables.
fn of_opening(own: &Own) -> Vec<Fault> {
    let tables = TABLES.into_iter().enumerate().filter(|(at, _)| own.constraints > 0 || ![4, 5, 9].contains(at));
    tables.map(|(_, fault)| fault).chain((own.constraints > 0).then_some(FACTOR)).collect()
}

/// The faults of adding: with a short award, and with cells of a state that is full or that no run gives.
fn of_adding(own: &Own) -> Vec<Fault> {
    let mut faults = of_opening(own);
    let award: Fault = (9, |draw, asked| asked.award.truncate(draw.below(6) as usize));
    faults.insert(4, award);
    faults.extend([(10, (|_, _| ()) as fn(&mut Draw, &mut Asked))]);
    faults.extend(AWARD);
    faults.extend([(21, (|_, _| ()) as fn(&mut Draw, &mut Asked))]);
    faults
}

/// Every fault, and every two; two that are one number's come to it as well.
fn pairs(faults: &[Fault]) -> Vec<Vec<Fault>> {
    let two = (0..faults.len()).flat_map(|at| (at + 1..faults.len()).map(move |later| (at, later)));
    let alone = faults.iter().map(|&fault| vec![fault]);
    alone.chain(two.map(|(at, later)| vec![faults[at], faults[later]])).collect()
}

fn open_call(round: &mut Round, kept: &mut Kept, asked: &Asked) -> Answer<Running> {
    let opening = asked.own.opening();
    kept.call(round, asked.rooms, |state| library::open_running(&opening, state), |state| Running::open(&opening, state))
}

/// Opening on any cells and on a state in use.
pub fn open(round: &mut Round) {
    let size = draw::size(&mut round.draw, round.number);
    let own = Own::new(&mut round.draw, size);
    let mut kept = Kept::new(&mut round.draw);
    let asked = Asked { own: own.clone(), award: Vec::new(), rooms: kept.rooms };
    let _ = open_call(round, &mut kept, &asked);
    for rooms in [ROOMS, ROOMS.map(|room| room + 7)] {
        let any = Buffers::new(&mut round.draw);
        kept = Kept { proved: any.clone(), second: any, rooms };
        let _ = open_call(round, &mut kept, &Asked { rooms, ..asked.clone() });
    }
    let all =
        if own.factors.len() < 3_000 { pairs(&of_opening(&own)) } else { of_opening(&own).into_iter().map(|fault| vec![fault]).collect() };
    let any = Buffers::new(&mut round.draw);
    kept = Kept { proved: any.clone(), second: any, rooms: kept.rooms };
    for faults in all {
        let mut asked = asked.clone();
        // the later one first: it knows the tables as they were
        faults.iter().rev().for_each(|(_, fault)| fault(&mut round.draw, &mut asked));
        let answer = open_call(round, &mut kept, &asked).map(|_| ());
        round.same(answer == Err(faults[0].0), "a fault and a later one");
    }
}

/// A state that a run reached, and an award of the period that is no option.
fn reached(round: &mut Round) -> Option<(Own, Kept, Vec<u64>)> {
    let size = draw::size(&mut round.draw, round.number);
    let own = Own::new(&mut round.draw, size);
    let mut kept = Kept::new(&mut round.draw);
    let rooms = kept.rooms;
    let mut running = Running::open(&own.opening(), &mut kept.second.state(rooms)).ok()?;
    kept.proved = kept.second.clone();
    for _ in 0..round.draw.below(6) {
        let row = award(&mut round.draw, &own, &running);
        let _ = kept.add(round, &own, &mut running, &row);
    }
    let node = |draw: &mut Draw| draw.below(own.nodes as u64);
    let ends = [node(&mut round.draw), node(&mut round.draw)];
    let holder = round.draw.below(1024);
    let row = vec![0, own.period, holder, ends[0], ends[1], 1 + round.draw.below(1_000_000)];
    Some((own, kept, row))
}

fn add_call(round: &mut Round, kept: &mut Kept, asked: &Asked) -> Answer<()> {
    let (opening, row) = (asked.own.opening(), &asked.award[..]);
    kept.call(round, asked.rooms, |state| library::add_award(&opening, row, state), |state| add_by_cells(&opening, row, state))
}

/// Adding with every fault and every two, to a state that a run reached; the cells stay as they were.
fn faulty(round: &mut Round, own: &Own, kept: &mut Kept, row: &[u64]) {
    let asked = Asked { own: own.clone(), award: row.to_vec(), rooms: kept.rooms };
    let faults = of_adding(own);
    let all = if own.factors.len() < 1_000 { pairs(&faults) } else { faults.iter().map(|&fault| vec![fault]).collect() };
    let before = kept.second.numbers.clone();
    for faults in all {
        let mut asked = asked.clone();
        faults.iter().rev().for_each(|(_, fault)| fault(&mut round.draw, &mut asked));
        let held = round.draw.pick(&[1000, 1001, 1 << 32, 1 << 63, u64::MAX]);
        let (full, over) = (faults.iter().any(|fault| fault.0 == 10), faults.iter().any(|fault| fault.0 == 21));
        kept.alter(|state| {
            if over {
                state.numbers[1] = if full { u64::MAX } else { state.numbers[0] + 1 };
            }
            if full {
                state.numbers[0] = held;
            }
        });
        let answer = add_call(round, kept, &asked);
        round.same(answer == Err(faults[0].0), "a fault and a later one");
        kept.alter(|state| state.numbers[..2].copy_from_slice(&before[MARGIN..MARGIN + 2]));
    }
}

/// Tables, process or period that are no longer the opening's, and in range.
fn others(round: &mut Round, own: &Own, kept: &mut Kept, row: &[u64]) {
    for _ in 0..6 {
        let mut other = Own::new(&mut round.draw, own.size());
        match round.draw.below(4) {
            0 => other = Own { process: other.process, ..own.clone() },
            1 => other = Own { period: other.period, ..own.clone() },
            2 => other = Own { limits: other.limits, ..own.clone() },
            _ => (),
        }
        let mut award = row.to_vec();
        award.extend((0..round.draw.below(3)).map(|_| u64::MAX));
        award[5] = 1 + round.draw.below(1_000_000);
        let _ = add_call(round, kept, &Asked { own: other, award, rooms: kept.rooms });
    }
}

pub fn add(round: &mut Round) {
    let Some((own, mut kept, row)) = reached(round) else { return };
    faulty(round, &own, &mut kept, &row);
    if own.factors.len() < 3_000 {
        others(round, &own, &mut kept, &row);
    }
    altered::cells(round, &own, &row);
}
