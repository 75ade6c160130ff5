//! Inputs of a stated size, drawn at random and within every range.

use crate::plain::{self, Form, MAX_HUB_NODES};
use crate::splitmix::Draw;

/// How large the inputs are.
#[derive(Clone, Copy)]
pub struct Size {
    pub nodes: usize,
    pub constraints: usize,
    pub contracts: usize,
}

/// The largest of each form, and the largest wide ones that the texts take.
pub const LARGEST: Size = Size { nodes: 200, constraints: 64, contracts: 1000 };
pub const WIDEST: Size = Size { nodes: 4000, constraints: 64, contracts: 1000 };
pub const WIDEST_TEXT: Size = Size { nodes: 226, constraints: 64, contracts: 1000 };
pub const WIDEST_TEXT_AT_8: Size = Size { nodes: 1818, constraints: 8, contracts: 1000 };

/// The longest files.
pub const GRID_BYTES: usize = 576_220;
pub const BOOK_BYTES: usize = 7_002;

/// Every table and every file of one size and form.
pub struct Inputs {
    pub size: Size,
    pub form: Form,
    pub limits: Vec<u64>,
    pub factors: Vec<i64>,
    pub prices: Vec<u64>,
    pub book: Vec<u64>,
    pub grid_file: Vec<u8>,
    pub book_file: Vec<u8>,
    pub price_file: Vec<u8>,
    /// Nodes to remap: as many pairs as there are nodes.
    pub old: Vec<u64>,
    pub new: Vec<u64>,
    /// A hub of as many nodes as there can be.
    pub hub_nodes: Vec<u64>,
    pub hub_weights: Vec<u64>,
}

fn contract(draw: &mut Draw, nodes: usize) -> [u64; 6] {
    let source = draw.below(nodes as u64);
    let sink = (source + 1 + draw.below(nodes as u64 - 1)) % nodes as u64;
    [draw.below(2), draw.below(2), draw.below(1024), source, sink, 1 + draw.below(1_000_000)]
}

/// Different nodes in any order, and weights that together are the whole.
fn hub(draw: &mut Draw, nodes: usize) -> (Vec<u64>, Vec<u64>) {
    let count = nodes.min(MAX_HUB_NODES);
    let mut hub_nodes = Vec::new();
    while hub_nodes.len() < count {
        let node = draw.below(nodes as u64);
        if !hub_nodes.contains(&node) {
            hub_nodes.push(node);
        }
    }
    let mut weights: Vec<u64> = (0..count).map(|_| 1 + draw.below(100_000 / count as u64)).collect();
    weights[0] += 100_000 - weights.iter().sum::<u64>();
    (hub_nodes, weights)
}

impl Inputs {
    pub fn new(size: Size, form: Form) -> Self {
        let Size { nodes, constraints, contracts } = size;
        let mut draw = Draw::new(2013);
        let limits: Vec<u64> = (0..constraints).map(|_| draw.below(100_000_001)).collect();
        let factors: Vec<i64> = (0..nodes * constraints).map(|_| draw.below(200_001) as i64 - 100_000).collect();
        let prices: Vec<u64> = (0..constraints).map(|_| draw.below(500_001)).collect();
        let book: Vec<u64> = (0..contracts).flat_map(|_| contract(&mut draw, nodes)).collect();
        let (mut grid_file, mut book_file, mut price_file) = (vec![0; GRID_BYTES], vec![0; BOOK_BYTES], vec![0; 153]);
        let length = plain::write_grid(form, nodes, constraints, &limits, &factors, &mut grid_file).expect("a grid in range");
        grid_file.truncate(length);
        let length = plain::write_book(form, nodes, contracts, &book, &mut book_file).expect("a book in range");
        book_file.truncate(length);
        let length = plain::write_prices(1, constraints, &prices, &mut price_file).expect("prices in range");
        price_file.truncate(length);
        let (old, new) = (0..nodes).map(|_| (draw.below(nodes as u64), draw.below(nodes as u64))).unzip();
        let (hub_nodes, hub_weights) = hub(&mut draw, nodes);
        Inputs { size, form, limits, factors, prices, book, grid_file, book_file, price_file, old, new, hub_nodes, hub_weights }
    }

    /// A book of as many rows for a quarter of the contracts: each has four rows, with quantities of their own and none beside another.
    pub fn split_book(&self) -> Vec<u8> {
        let Size { nodes, contracts, .. } = self.size;
        let rows: Vec<&[u64]> = self.book.chunks_exact(6).collect();
        let few = contracts.div_ceil(4);
        let split: Vec<u64> = (0..contracts).flat_map(|i| [&rows[i % few][..5], &rows[i][5..]].concat()).collect();
        let mut file = vec![0; BOOK_BYTES];
        let length = plain::write_book(self.form, nodes, contracts, &split, &mut file).expect("a book in range");
        file.truncate(length);
        file
    }

    /// Limits that the on-peak book exceeds in the monthly process, at the constraint in the middle alone and by 10 MW. The others have 1,000 MW to spare.
    pub fn tight_limits(&self) -> Result<Vec<u64>, String> {
        let Size { nodes, constraints, .. } = self.size;
        let mut flows = vec![0; constraints];
        plain::find_flows(nodes, constraints, 1, &self.limits, &self.factors, &self.book_file, &mut flows).expect("tables in range");
        let limit = |(k, &flow): (usize, &i64)| flow / 100_000 + if k == constraints / 2 { -10_000 } else { 1_000_000 };
        let limits: Vec<i64> = flows.iter().enumerate().map(limit).collect();
        if limits.iter().any(|limit| !(0..=100_000_000).contains(limit)) {
            return Err("the flows leave no room for such limits".to_string());
        }
        Ok(limits.iter().map(|&limit| limit as u64).collect())
    }
}
