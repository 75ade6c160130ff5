//! Cells that no operation gave: answered by what they say, a refusal changes nothing, and no cell outside the buffers is touched.

use super::*;
use crate::second::running::{add_by_cells, mark_by_cells, return_by_cells, TIERS};

pub const CASES: [&str; 9] = [
    "held 1,000 or more",
    "counted above held",
    "a flow beyond its count",
    "a flow below its count",
    "a flow as large as its count",
    "altered, and the other period's",
    "altered, and held",
    "over the limit, and lowered to it",
    "any cells",
];

/// The most that so many awards can have on a constraint.
const MOST: i64 = 200_000_000_000;

/// Counts that a run could have, with a fault now and then.
fn counts(draw: &mut Draw) -> [u64; 2] {
    let held = draw.pick(&[0, 1, 2, 500, 998, 999]);
    match draw.below(8) {
        0 => [draw.pick(&[1000, 1001, 1 << 32, 1 << 63, u64::MAX]), draw.below(1000)],
        1 => [held, held + 1],
        2 => [held, draw.pick(&[1 << 32, 1 << 63, u64::MAX])],
        _ => [held, draw.below(held + 1)],
    }
}

/// A flow around what so many awards can have, around 0, or any.
fn carried(draw: &mut Draw, counted: u64) -> i64 {
    let most = MOST * counted.min(1000) as i64;
    match draw.below(24) {
        0 => most,
        1 => -most,
        2 => most + 1,
        3 => -most - 1,
        4 => draw.pick(&[i64::MIN, i64::MAX, i64::MIN + 1, 1 << 62, -(1 << 62)]),
        5..=8 => draw.within(-i128::from(most), i128::from(most)) as i64,
        9..=12 => draw.within(-1_000_000_000, 1_000_000_000).clamp(-i128::from(most), i128::from(most)) as i64,
        _ => 0,
    }
}

fn shown(own: &Own, row: &[u64], state: &State, answer: Answer<()>) -> Vec<&'static str> {
    let [held, counted] = [state.numbers[0], state.numbers[1]];
    let flows = &state.flows[..own.constraints];
    let most = i128::from(MOST) * i128::from(counted);
    let sound = held < 1000 && counted <= held;
    let of_period = row[1] == own.period;
    let limit = |k: usize| i128::from(own.limits[k]) * [65, 60, 100][own.process as usize] * 1000;
    let over = (0..own.constraints).any(|k| i128::from(flows[k]) > limit(k));
    names(
        &CASES[..8].try_into().expect("eight"),
        [
            held >= 1000,
            held < 1000 && counted > held && of_period,
            sound && of_period && flows.iter().any(|&flow| i128::from(flow) > most),
            sound && of_period && flows.iter().any(|&flow| i128::from(flow) < -most),
            sound && of_period && flows.iter().any(|&flow| i128::from(flow).abs() == most && most > 0),
            answer.is_ok() && !of_period && (counted > held || flows.iter().any(|&flow| i128::from(flow).abs() > most)),
            answer.is_ok() && of_period,
            answer.is_ok() && of_period && over,
        ],
    )
}

/// Adding to counts and flows that no run gave.
pub fn cells(round: &mut Round, own: &Own, row: &[u64]) {
    let mut kept = Kept::new(&mut round.draw);
    for turn in 0..24 {
        let mut row = row.to_vec();
        row[0] = round.draw.below(2);
        row[5] = round.draw.pick(&[1, 1000, 1_000_000, row[5]]);
        if round.draw.once_in(5) {
            row[1] = 1 - own.period;
        }
        // the first turn is on any cells at all
        if turn > 0 {
            let numbers = counts(&mut round.draw);
            let flows: Vec<i64> = (0..64).map(|_| carried(&mut round.draw, numbers[1])).collect();
            kept.alter(|state| {
                state.numbers[..2].copy_from_slice(&numbers);
                state.flows[..64].copy_from_slice(&flows);
            });
        }
        let mut before = kept.second.clone();
        let (opening, rooms) = (own.opening(), kept.rooms);
        let answer =
            kept.call(round, rooms, |state| library::add_award(&opening, &row, state), |state| add_by_cells(&opening, &row, state));
        round.shown(&shown(own, &row, &before.state(rooms), answer));
    }
    round.shown(&CASES[8..]);
}

/// Cells of marks: flags of any size, numbers that are often equal, and flows.
fn any_marks(draw: &mut Draw, kept: &mut Kept) {
    let held: Vec<u64> = (0..=TIERS).map(|_| draw.pick(&[0, 1, 2, 3, 999, 1000, u64::MAX])).collect();
    let flags: Vec<u64> = (0..TIERS).map(|_| draw.pick(&[0, 0, 1, 1, 1, 2, 1 << 32, u64::MAX])).collect();
    let counted: Vec<u64> = (0..=TIERS).map(|_| draw.next()).collect();
    let flows: Vec<i64> = (0..FLOWS).map(|_| draw.next() as i64).collect();
    kept.alter(|state| {
        state.numbers[..2].copy_from_slice(&[held[0], counted[0]]);
        for tier in 1..=TIERS {
            state.numbers[3 * tier - 1..3 * tier + 2].copy_from_slice(&[flags[tier - 1], held[tier], counted[tier]]);
        }
        state.flows[..FLOWS].copy_from_slice(&flows);
    });
}

/// Buffers for marks, long enough or not, beside no awards.
fn marks_rooms(draw: &mut Draw) -> [usize; 3] {
    match draw.below(6) {
        0 => [0, draw.pick(&[0, 1, 2, 5, 8, 11, NUMBERS - 1]), FLOWS],
        1 => [0, NUMBERS, draw.pick(&[0, 63, 64, 128, 192, 256, FLOWS - 1])],
        2 => [0, NUMBERS - 1, FLOWS - 1],
        _ => [0, NUMBERS + draw.below(3) as usize, FLOWS + draw.below(3) as usize],
    }
}

/// Calls of marking or returning on any cells, one after another; 9 comes before 20.
fn on_marks(round: &mut Round, proved: fn(u64, &mut State) -> u64, second: fn(u64, &mut State) -> Answer<()>) {
    let mut kept = Kept::new(&mut round.draw);
    for _ in 0..20 {
        any_marks(&mut round.draw, &mut kept);
        for _ in 0..4 {
            let tier = if round.draw.once_in(4) { round.draw.pick(&OTHER_TIERS) } else { 1 + round.draw.below(4) };
            let rooms = marks_rooms(&mut round.draw);
            let short = rooms[1] < NUMBERS || rooms[2] < FLOWS;
            let answer = kept.call(round, rooms, |state| proved(tier, state), |state| second(tier, state));
            round.same((answer == Err(9)) == short && (short || (1..=4).contains(&tier) || answer == Err(20)), "9, and then 20");
        }
    }
}

pub fn mark(round: &mut Round) {
    on_marks(round, library::mark_tier, mark_by_cells);
}

pub fn return_to(round: &mut Round) {
    on_marks(round, library::return_to_tier, return_by_cells);
}
