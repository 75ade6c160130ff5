//! Trading hubs as they are listed: different nodes in any order, weights that tie and weights at the ends of their range; and what can be wrong with them.

use crate::draw::{self, Draw, Size, EXTREMES};
use crate::second::hubs;

const MOST: u64 = 32;
const WHOLE: u64 = 100_000;

/// Enough nodes for a hub of many, more often than for other entries.
pub fn size(draw: &mut Draw, round: u64) -> Size {
    let size = draw::size(draw, round);
    if round < EXTREMES.len() as u64 || size.nodes > 5 || draw.once_in(2) {
        size
    } else {
        Size { nodes: draw.within(6, 60), ..size }
    }
}

#[derive(Clone)]
pub struct Hub {
    pub nodes: Vec<u64>,
    pub weights: Vec<u64>,
}

impl Hub {
    /// A hub of nodes below a number.
    pub fn new(draw: &mut Draw, below: u64) -> Self {
        let most = below.min(MOST);
        let count = match draw.below(4) {
            0 => most,
            1 => draw.pick(&[1, 2, 2, 3, 31]).min(most),
            _ => draw.within(1, most.into()) as u64,
        };
        Hub { nodes: nodes(draw, below, count as usize), weights: weights(draw, count as usize) }
    }

    pub fn second(&self) -> hubs::Hub<'_> {
        hubs::Hub { nodes: &self.nodes, weights: &self.weights }
    }

    /// Whether 24 does not refuse it, so that it can be made one that is refused.
    pub fn sound(&self) -> bool {
        let total: u128 = self.weights.iter().map(|&weight| u128::from(weight)).sum();
        self.nodes.len() == self.weights.len() && total == u128::from(WHOLE) && self.weights.iter().all(|&weight| weight > 0)
    }

    /// The same hub in another order.
    pub fn shuffled(&self, draw: &mut Draw) -> Self {
        let mut hub = self.clone();
        for last in (1..hub.nodes.len()).rev() {
            let other = draw.below(last as u64 + 1) as usize;
            hub.nodes.swap(last, other);
            hub.weights.swap(last, other);
        }
        hub
    }

    /// A node again anywhere in the list, seldom beside its first place, and the weights together as they were.
    pub fn twice(&mut self, draw: &mut Draw) {
        let count = self.nodes.len();
        let place = draw.below(count as u64) as usize;
        let node = self.nodes[place];
        if count as u64 == MOST {
            self.nodes[(place + 1 + draw.below(MOST - 1) as usize) % count] = node;
            return;
        }
        *self.weights.iter_mut().max().expect("a node") -= 1;
        let again = draw.below(count as u64 + 1) as usize;
        self.nodes.insert(again, node);
        self.weights.insert(again, 1);
    }
}

/// The ends of the range often, and the numbers about the last of a narrow book.
fn nodes(draw: &mut Draw, below: u64, count: usize) -> Vec<u64> {
    let mut nodes = Vec::new();
    while nodes.len() < count {
        let likely = [0, below - 1, 255, 256];
        let node = if draw.once_in(5) { draw.pick(&likely).min(below - 1) } else { draw.below(below) };
        if !nodes.contains(&node) {
            nodes.push(node);
        }
    }
    nodes
}

/// Together 100,000: equal ones as far as they go, many of 1, few different ones, or any.
fn weights(draw: &mut Draw, count: usize) -> Vec<u64> {
    let equal = WHOLE / count as u64;
    let kind = draw.below(4);
    let mut weights: Vec<u64> = (0..count)
        .map(|_| match kind {
            0 => equal,
            1 => 1,
            2 => draw.pick(&[1, equal / 2, equal / 3, equal]).max(1),
            _ => 1 + draw.below(equal),
        })
        .collect();
    let rest = WHOLE - weights.iter().sum::<u64>();
    let place = draw.below(count as u64) as usize;
    match kind {
        0 => (0..rest as usize).for_each(|i| weights[(place + i) % count] += 1),
        _ => weights[place] += rest,
    }
    weights
}

/// The ways to 24.
pub const SHAPES: [&str; 9] = [
    "24: no nodes",
    "24: 33 nodes",
    "24: fewer weights than nodes",
    "24: more weights than nodes",
    "24: a weight of 0",
    "24: a weight above 100,000",
    "24: 99,999 together",
    "24: 100,001 together",
    "24: 100,000 together modulo 2^64",
];

/// Makes a hub one that is refused by 24, in one way and as little otherwise as can be.
pub fn misshape(draw: &mut Draw, hub: &mut Hub, below: u64, way: usize) {
    let count = hub.nodes.len();
    let place = draw.below(count as u64) as usize;
    let next = (place + 1) % count;
    match way {
        0 => *hub = Hub { nodes: Vec::new(), weights: Vec::new() },
        1 => {
            let start = draw.below(below);
            *hub = Hub { nodes: (0..33).map(|i| (start + i) % below).collect(), weights: weights(draw, 33) };
        }
        2 if count > 1 => {
            let lost = hub.weights.pop().expect("more than one");
            hub.weights[place % (count - 1)] += lost;
        }
        2 => hub.weights.clear(),
        3 => hub.weights.push(draw.pick(&[0, 1, WHOLE])),
        4 => {
            hub.weights[next] += hub.weights[place];
            hub.weights[place] = 0;
        }
        5 => hub.weights[place] = draw.pick(&[WHOLE + 1, 1 << 32, (1 << 32) + hub.weights[place], 1 << 63, u64::MAX]),
        6 => hub.weights[place] -= 1,
        7 => hub.weights[place] += 1,
        _ if count > 1 => [place, next].iter().for_each(|&at| hub.weights[at] += 1 << 63),
        _ => hub.weights[place] += 1 << 32,
    }
}

/// A number that is no node of a grid, or of a narrow book.
pub fn no_node(draw: &mut Draw, below: u64) -> u64 {
    draw.pick(&[below, below, below + 1, 4095, 4096, 1 << 32, (1 << 32) + below - 1, 1 << 63, u64::MAX]).max(below)
}
