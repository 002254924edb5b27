//! What Expand is called with, and what it answers.

use crate::rows::Row;

/// The caps of the limits.
pub const MOST_NODES: u32 = 4_000_000;
pub const MOST_DEPTH: u32 = 512;
pub const MOST_CHARGES: u32 = 16_777_216;

/// What Expand is called with. Of the lent slices only the lengths matter.
#[derive(Clone, Debug)]
pub struct Call {
    pub root: Vec<u32>,
    pub library: Vec<u32>,
    pub max_nodes: u32,
    pub max_depth: u32,
    pub max_rows: u32,
    /// Words of out, ledger, scopes and work.
    pub lent: [u64; 4],
}

impl Call {
    /// The least lengths that refusal 1 lets by.
    pub fn needed(max_nodes: u32, max_depth: u32, max_rows: u32) -> [u64; 4] {
        let (n, d, k) = (max_nodes as u64, max_depth as u64, max_rows as u64);
        [8 * k, 3 * n, 5 * k, 16 * k + 64 * (d + 1)]
    }

    /// A call with slices of exactly the needed lengths.
    pub fn new(root: Vec<u32>, library: Vec<u32>, max_nodes: u32, max_depth: u32, max_rows: u32) -> Call {
        let lent = Call::needed(max_nodes, max_depth, max_rows);
        Call { root, library, max_nodes, max_depth, max_rows, lent }
    }

    /// The limits are within their caps, and the slices long enough.
    pub fn in_room(&self) -> bool {
        let needed = Call::needed(self.max_nodes, self.max_depth, self.max_rows);
        let short = self.lent.iter().zip(needed).any(|(lent, needed)| *lent < needed);
        self.max_nodes <= MOST_NODES && self.max_depth <= MOST_DEPTH && self.max_rows <= MOST_CHARGES && !short
    }

    /// Rows of both sheets, for finding the smallest of several inputs.
    pub fn size(&self) -> usize {
        (self.root.len() + self.library.len()) / 8
    }
}

/// A refusal with its two place numbers.
#[derive(Clone, Copy, Debug, PartialEq, Eq)]
pub struct Refusal {
    pub number: u32,
    pub places: [u32; 2],
}

/// An accepted expansion. Where words past these are lent, they stay.
#[derive(Clone, Debug, PartialEq, Eq)]
pub struct Expanded {
    pub nodes: u32,
    pub charges: u32,
    pub out: Vec<Row>,
    /// Scope, document, source id.
    pub ledger: Vec<[u32; 3]>,
    /// Kind, document, PROTO id, interface index, opening scope.
    pub scopes: Vec<[u32; 5]>,
    /// The instance that opened each scope, by its node id (0 for scope 0). No part of the answer's words.
    pub instances: Vec<u32>,
}

pub type Answer = Result<Expanded, Refusal>;

/// The words of an answer: refusal, two places, nodes, scopes, charges, rows of out.
pub fn head(answer: &Answer) -> [u32; 7] {
    match answer {
        Ok(e) => [0, 0, 0, e.nodes, e.scopes.len() as u32, e.charges, e.out.len() as u32],
        Err(r) => [r.number, r.places[0], r.places[1], 0, 0, 0, 0],
    }
}

/// A refusal as a result.
pub fn refuse<T>(number: u32, first: u32, second: u32) -> Result<T, Refusal> {
    Err(Refusal { number, places: [first, second] })
}
