//! Finding the MCC of hubs: sums of either sign with and without a remainder, at the ends of their range, and listed in another order.

use super::hubs::{misshape, no_node, Hub, SHAPES};
use super::*;
use crate::draw::{self, Size, EXTREMES};
use crate::lent::Lent;
use crate::library;
use crate::second::hubs::find_hub_mcc;
use crate::second::settlement;
use crate::tally::Round;

pub const CASES: [&str; 11] = [
    "1 node",
    "32 nodes",
    "node 3,999",
    "no constraint",
    "a negative sum with a remainder",
    "a positive sum with a remainder",
    "a negative sum without",
    "remainder 99,999",
    "an MCC of 3.2 * 10^12",
    "an MCC of -3.2 * 10^12",
    "33 different nodes refused",
];

/// The extremes, and two rounds more: the largest MCC and the least.
const LARGEST: u64 = EXTREMES.len() as u64;
const LEAST: u64 = LARGEST + 1;
pub const FIRST_ROUNDS: u64 = LEAST + 1;

#[derive(Clone)]
struct Asked {
    nodes: usize,
    constraints: usize,
    factors: Vec<i64>,
    prices: Vec<u64>,
    hub: Hub,
}

/// Whether quotient and remainder make up the weighted sum of the MCCs that the library finds of the nodes.
fn exact(asked: &Asked, quotient: i64, remainder: u64) -> bool {
    let mut mcc = vec![0; asked.nodes];
    let answer = library::find_mcc(asked.nodes, asked.constraints, &asked.factors, &asked.prices, &mut mcc);
    let products =
        asked.hub.nodes.iter().zip(&asked.hub.weights).map(|(&node, &weight)| i128::from(weight) * i128::from(mcc[node as usize]));
    answer == 0 && remainder < 100_000 && products.sum::<i128>() == i128::from(quotient) * 100_000 + i128::from(remainder)
}

fn cases(asked: &Asked, answer: &Answer<(i128, i128)>) -> Vec<&'static str> {
    let nodes = &asked.hub.nodes;
    let Ok((quotient, remainder)) = *answer else {
        let different = nodes.len() == 33 && (1..33).all(|i| !nodes[..i].contains(&nodes[i])) && asked.hub.sound();
        return if *answer == Err(24) && different { CASES[10..].to_vec() } else { Vec::new() };
    };
    let shown = [
        nodes.len() == 1,
        nodes.len() == 32,
        nodes.contains(&3999),
        asked.constraints == 0,
        quotient < 0 && remainder > 0,
        quotient >= 0 && remainder > 0,
        quotient < 0 && remainder == 0,
        remainder == 99_999,
        quotient == 3_200_000_000_000,
        quotient == -3_200_000_000_000,
        false,
    ];
    names(&CASES, shown)
}

/// One call; gives the second implementation's answer.
fn call(round: &mut Round, asked: &Asked) -> Answer<(i128, i128)> {
    let Asked { nodes, constraints, factors, prices, hub } = asked;
    let tables = settlement::Asked { nodes: *nodes, constraints: *constraints, period: 0, factors, prices, book: &[] };
    let second = find_hub_mcc(&tables, hub.second());
    let mut quotient = Lent::<i64>::new(&mut round.draw, "quotient", 1);
    let mut remainder = Lent::<u64>::new(&mut round.draw, "remainder", 1);
    let lent = (quotient.figure(), remainder.figure());
    let proved = library::find_hub_mcc(*nodes, *constraints, factors, prices, &hub.nodes, &hub.weights, lent.0, lent.1);
    let wrong = unless(proved != 0 || second.is_err() || exact(asked, *lent.0, *lent.1), "not the weighted sum");
    let (number, figures) = match second {
        Ok((quotient, remainder)) => (0, [vec![quotient], vec![remainder]]),
        Err(number) => (number, Default::default()),
    };
    round.compare(proved, number, &[quotient.difference(&figures[0]), remainder.difference(&figures[1]), wrong]);
    round.shown(&cases(asked, &second));
    second
}

fn inputs(round: &mut Round) -> (Size, Asked) {
    let extreme = [LARGEST, LEAST].contains(&round.number);
    let size = if extreme { Size { nodes: 40, constraints: 64, contracts: 0 } } else { hubs::size(&mut round.draw, round.number) };
    let draw = &mut round.draw;
    let (mut grid, mut list) = (draw::grid(draw, size), draw::prices(draw, size.constraints));
    if extreme {
        let most = if round.number == LARGEST { -100_000 } else { 100_000 };
        grid.factors.iter_mut().flatten().for_each(|factor| *factor = most);
        list.fill(500_000);
    } else if draw.once_in(8) {
        // Sums of a few weights: all of the remainder's range.
        grid.factors.iter_mut().flatten().for_each(|factor| *factor = draw.pick(&[0, 0, 0, 1, -1]));
        list.fill(1);
    }
    let factors = table(draw, &grid.factor_cells(), |factor| factor as i64, i64::MAX);
    let prices = table(draw, &list, |price| price as u64, u64::MAX);
    let hub = Hub::new(draw, size.nodes as u64);
    (size, Asked { nodes: size.nodes as usize, constraints: size.constraints as usize, factors, prices, hub })
}

/// What each check refuses, in the order of the checks.
const RUNGS: [u64; 9] = [2, 3, 9, 9, 7, 15, 11, 24, 25];

/// One thing wrong, by the check that it fails.
fn wrong(draw: &mut Draw, asked: &mut Asked, size: Size, check: usize) {
    let cells = asked.factors.len().min((size.nodes * size.constraints) as usize);
    let (below, listed) = (size.nodes as u64, asked.hub.nodes.len());
    match check {
        0 => asked.nodes = draw.pick(&WRONG_NODES),
        1 => asked.constraints = draw.pick(&WRONG_CONSTRAINTS),
        2 => asked.factors.truncate(short(cells)),
        3 => asked.prices.truncate(short(asked.prices.len().min(size.constraints as usize))),
        4 => spoil(draw, &mut asked.factors, short(cells).max(1), &WRONG_FACTORS),
        5 => spoil(draw, &mut asked.prices, short(size.constraints as usize).max(1), &WRONG_PRICES),
        6 if listed > 0 => {
            let far = no_node(draw, below);
            spoil(draw, &mut asked.hub.nodes, listed, &[far]);
        }
        7 if asked.hub.sound() => {
            let way = draw.below(SHAPES.len() as u64) as usize;
            misshape(draw, &mut asked.hub, below, way);
        }
        8 if asked.hub.sound() => asked.hub.twice(draw),
        _ => {}
    }
}

/// For each check a call that fails at it and at every later one.
fn ladder(round: &mut Round, valid: &Asked, size: Size) {
    for (rung, &number) in RUNGS.iter().enumerate() {
        let mut asked = valid.clone();
        asked.hub.twice(&mut round.draw);
        if rung < 8 {
            *asked.hub.weights.iter_mut().max().expect("a node") -= 1;
        }
        for check in (rung..7).rev() {
            wrong(&mut round.draw, &mut asked, size, check);
        }
        let answer = call(round, &asked);
        round.same(answer == Err(number), "the first check that fails");
    }
}

pub fn round(round: &mut Round) {
    let (size, valid) = inputs(round);
    let below = size.nodes as u64;
    for _ in 0..3 {
        let asked = Asked { hub: Hub::new(&mut round.draw, below), ..valid.clone() };
        let hub = asked.hub.shuffled(&mut round.draw);
        let answers = [call(round, &asked), call(round, &Asked { hub, ..asked.clone() })];
        round.same(answers[0] == answers[1] && answers[0].is_ok(), "another order of the list");
    }
    for (way, shape) in SHAPES.iter().enumerate() {
        let mut asked = valid.clone();
        misshape(&mut round.draw, &mut asked.hub, below, way);
        let answer = call(round, &asked);
        round.same(answer == Err(24), shape);
        round.shown(&SHAPES[way..=way]);
    }
    if size.constraints > 0 {
        ladder(round, &valid, size);
    }
    for _ in 0..12 {
        let mut asked = valid.clone();
        for _ in 0..round.draw.within(1, 3) {
            let check = round.draw.below(RUNGS.len() as u64) as usize;
            wrong(&mut round.draw, &mut asked, size, check);
        }
        let _ = call(round, &asked);
    }
}
