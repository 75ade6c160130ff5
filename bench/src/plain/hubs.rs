use super::book::{check_book, check_listed, ends_below, store_contracts, NARROW, WIDE};
use super::settlement::node_mcc;
use super::*;

const WHOLE: u64 = 100_000;

/// The hub's nodes and weights, in the order of the list.
fn check_hub(nodes: &[u64], weights: &[u64]) -> Result<(), Refusal> {
    demand((1..=MAX_HUB_NODES).contains(&nodes.len()) && nodes.len() == weights.len(), HUB_SHAPE)?;
    demand(weights.iter().all(|weight| (1..=WHOLE).contains(weight)), HUB_SHAPE)?;
    demand(weights.iter().sum::<u64>() == WHOLE, HUB_SHAPE)
}

/// A node with its weight as one number, sorted by node; a node of two of them is listed twice.
fn sorted<'a>(nodes: &[u64], weights: &[u64], pairs: &'a mut [u64; MAX_HUB_NODES]) -> Result<&'a [u64], Refusal> {
    let pairs = &mut pairs[..nodes.len()];
    for (pair, (&node, &weight)) in pairs.iter_mut().zip(nodes.iter().zip(weights)) {
        *pair = node << 32 | weight;
    }
    pairs.sort_unstable();
    demand(!pairs.windows(2).any(|two| two[0] >> 32 == two[1] >> 32), HUB_NODE_TWICE)?;
    Ok(pairs)
}

/// The MCC of a hub, rounded down, and what is left of the weighted sum.
#[inline(never)]
pub fn find_hub_mcc(
    nodes: usize,
    constraints: usize,
    factors: &[i64],
    prices: &[u64],
    hub_nodes: &[u64],
    hub_weights: &[u64],
) -> Result<(i64, u64), Refusal> {
    check_nodes(nodes)?;
    check_constraints(constraints)?;
    let factors = factors.get(..nodes * constraints).ok_or(SHORT_TABLE)?;
    let prices = prices.get(..constraints).ok_or(SHORT_TABLE)?;
    check_factors(factors)?;
    check_prices(prices)?;
    check_listed(nodes as u64, hub_nodes)?;
    check_hub(hub_nodes, hub_weights)?;
    sorted(hub_nodes, hub_weights, &mut [0; MAX_HUB_NODES])?;
    let weighted = |(&node, &weight): (&u64, &u64)| node_mcc(constraints, factors, prices, node as usize) * weight as i64;
    let sum: i64 = hub_nodes.iter().zip(hub_weights).map(weighted).sum();
    Ok((sum.div_euclid(WHOLE as i64), sum.rem_euclid(WHOLE as i64) as u64))
}

/// The share of each pair, in their order: rounded down, and one more for those whose remainders are the largest, then for the earlier.
fn shares<'a>(pairs: &[u64], quantity: u64, shares: &'a mut [u64; MAX_HUB_NODES]) -> &'a [u64] {
    let shares = &mut shares[..pairs.len()];
    let mut keys = [0; MAX_HUB_NODES];
    let keys = &mut keys[..pairs.len()];
    let mut left = quantity;
    for (place, ((&pair, share), key)) in pairs.iter().zip(&mut *shares).zip(&mut *keys).enumerate() {
        let part = quantity * (pair & 0xffff_ffff);
        *share = part / WHOLE;
        left -= *share;
        *key = (part % WHOLE) << 5 | (31 - place as u64);
    }
    if left > 0 {
        let mut ordered = [0; MAX_HUB_NODES];
        let ordered = &mut ordered[..pairs.len()];
        ordered.copy_from_slice(keys);
        let (_, &mut least, _) = ordered.select_nth_unstable(pairs.len() - left as usize);
        for (share, &key) in shares.iter_mut().zip(&*keys) {
            *share += u64::from(key >= least);
        }
    }
    shares
}

/// What is the same of all contracts that one from a hub becomes.
#[derive(Clone, Copy)]
pub struct Order {
    pub kind: u64,
    pub period: u64,
    pub holder: u64,
    pub sink: u64,
    pub quantity: u64,
}

#[inline(never)]
pub fn add_hub_contract(
    nodes: usize,
    book: &[u8],
    order: Order,
    hub_nodes: &[u64],
    hub_weights: &[u64],
    file: &mut [u8],
) -> Result<usize, Refusal> {
    check_nodes(nodes)?;
    let (count, form) = check_book(nodes, book)?;
    demand(order.kind <= 1 && order.period <= 1, PERIOD_OR_KIND)?;
    demand(order.holder <= 1023, HOLDER_RANGE)?;
    let below = ends_below(form, nodes);
    check_listed(below, hub_nodes)?;
    check_listed(below, &[order.sink])?;
    demand((1..=1_000_000).contains(&order.quantity), QUANTITY_RANGE)?;
    check_hub(hub_nodes, hub_weights)?;
    let (mut pairs, mut cells) = ([0; MAX_HUB_NODES], [0; MAX_HUB_NODES]);
    let pairs = sorted(hub_nodes, hub_weights, &mut pairs)?;
    let shares = shares(pairs, order.quantity, &mut cells);
    let grown = count + shares.iter().filter(|&&share| share > 0).count();
    demand(grown <= MAX_CONTRACTS, CONTRACT_COUNT)?;
    let (bytes, spare) = if form == Form::Narrow { (NARROW, 0) } else { (WIDE, 0x3f) };
    let size = 2 + bytes * grown;
    let file = file.get_mut(..size).ok_or(SHORT_TABLE)?;
    file[..2].copy_from_slice(&((grown as u16) << 6 | spare).to_be_bytes());
    file[2..book.len()].copy_from_slice(&book[2..]);
    let rows = pairs.iter().zip(shares).filter(|(_, &share)| share > 0).map(|(&pair, &share)| (pair >> 32, share));
    let row = |(node, share): (u64, u64)| [order.kind, order.period, order.holder, node, order.sink, share];
    match form {
        Form::Narrow => store_contracts::<NARROW>(rows.map(row), &mut file[book.len()..]),
        Form::Wide => store_contracts::<WIDE>(rows.map(row), &mut file[book.len()..]),
    }
    Ok(size)
}
