//! Paper 7: trading hubs. Parts of a quantity are exact fractions whose denominator is the whole weight, and leftover thousandths are handed out one at a time.

use super::book::{file_of, largest_end, parse, Contract};
use super::settlement::{self, find_mcc};
use super::{first, nodes_fail, Answer};
use std::collections::BTreeMap;

const WHOLE: i128 = 100_000;

/// A hub as it is listed.
#[derive(Clone, Copy)]
pub struct Hub<'a> {
    pub nodes: &'a [u64],
    pub weights: &'a [u64],
}

impl Hub<'_> {
    /// 11.
    fn lists_no_node(&self, below: i128) -> bool {
        self.nodes.iter().any(|&node| i128::from(node) >= below)
    }

    /// 24: not 1 to 32 nodes, unequal lists, or weights that leave their range or don't total 100,000.
    fn misshapen(&self) -> bool {
        let weights: Vec<i128> = self.weights.iter().map(|&weight| weight.into()).collect();
        let count = (1..=32).contains(&self.nodes.len());
        let in_range = weights.iter().all(|weight| (1..=WHOLE).contains(weight));
        !count || self.nodes.len() != weights.len() || !in_range || weights.iter().sum::<i128>() != WHOLE
    }

    /// 25.
    fn lists_twice(&self) -> bool {
        self.weight_by_node().len() < self.nodes.len()
    }

    /// The nodes in the order of their numbers, whatever the order of the list.
    fn weight_by_node(&self) -> BTreeMap<i128, i128> {
        self.nodes.iter().zip(self.weights).map(|(&node, &weight)| (node.into(), weight.into())).collect()
    }

    /// The share of each node: its part of the quantity rounded down, and then one thousandth after another to the node that is the furthest below its part,
    /// of equal ones to the lower.
    pub fn shares(&self, quantity: i128) -> BTreeMap<i128, i128> {
        let parts: BTreeMap<i128, i128> = self.weight_by_node().iter().map(|(&node, weight)| (node, quantity * weight)).collect();
        let mut shares: BTreeMap<i128, i128> = parts.iter().map(|(&node, part)| (node, part / WHOLE)).collect();
        while shares.values().sum::<i128>() < quantity {
            let below = |node: &i128| parts[node] - WHOLE * shares[node];
            // The last of equal ones is found, so they are looked at from the highest number down.
            let next = parts.keys().rev().copied().max_by_key(below).expect("a hub has a node");
            *shares.entry(next).or_default() += 1;
        }
        shares
    }
}

/// Quotient and remainder of the weighted sum of the nodes' MCCs. All tables are checked as for the MCC of all nodes.
pub fn find_hub_mcc(asked: &settlement::Asked, hub: Hub) -> Answer<(i128, i128)> {
    let mcc = find_mcc(asked, asked.nodes)?;
    first(&[(hub.lists_no_node(mcc.len() as i128), 11), (hub.misshapen(), 24), (hub.lists_twice(), 25)])?;
    let sum: i128 = hub.weight_by_node().iter().map(|(&node, weight)| weight * mcc[node as usize]).sum();
    Ok((sum.div_euclid(WHOLE), sum.rem_euclid(WHOLE)))
}

/// A contract from a hub, for a book.
pub struct Asked<'a> {
    pub nodes: usize,
    pub book: &'a [u8],
    pub kind: u64,
    pub period: u64,
    pub holder: u64,
    pub hub: Hub<'a>,
    pub sink: u64,
    pub quantity: u64,
}

/// The contracts that it becomes: one for each share that isn't empty, by node number.
pub fn contracts(asked: &Asked) -> Vec<Contract> {
    let [kind, period, holder, sink] = [asked.kind, asked.period, asked.holder, asked.sink].map(i128::from);
    let shares = asked.hub.shares(asked.quantity.into());
    shares
        .iter()
        .filter(|(_, &share)| share > 0)
        .map(|(&source, &quantity)| Contract { kind, period, holder, source, sink, quantity })
        .collect()
}

pub fn add(asked: &Asked, room: usize) -> Answer<Vec<u8>> {
    let nodes = asked.nodes as i128;
    first(&[(nodes_fail(nodes), 2)])?;
    let (form, mut book) = parse(nodes, asked.book)?;
    // a hub's node and the sink must also fit the book's own form
    let below = nodes.min(largest_end(form) + 1);
    first(&[
        (asked.kind > 1 || asked.period > 1, 17),
        (asked.holder > 1023, 18),
        (asked.hub.lists_no_node(below), 11),
        (i128::from(asked.sink) >= below, 11),
        (asked.quantity == 0 || asked.quantity > 1_000_000, 13),
        (asked.hub.misshapen(), 24),
        (asked.hub.lists_twice(), 25),
    ])?;
    book.extend(contracts(asked));
    first(&[(book.len() > 1000, 10)])?;
    let file = file_of(form, &book);
    first(&[(room < file.len(), 9)])?;
    Ok(file)
}
