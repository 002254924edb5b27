//! Counts over many cases: refusals, and what the accepted ones contained.

use std::fmt;

use crate::call::Answer;
use crate::rows;

/// What was seen over many cases.
#[derive(Default)]
pub struct Tally {
    pub cases: u64,
    pub compared: u64,
    /// Calls in which a default is taken because of an IS to nothing, so that the original is no reference.
    pub by_is: u64,
    /// Of these, the ones held against the original without the fields so bound.
    pub absent: u64,
    /// Calls in which a file of the library declares an extern: the reckoning is alone with the picks.
    pub linked: u64,
    /// Of these, the ones held against the original as one document.
    pub merged: u64,
    pub accepted: u64,
    pub refused: [u64; 11],
    pub loops: u64,
    pub bodies: u64,
    pub defaults: u64,
    pub fetched: u64,
    pub externs: u64,
    pub roots: u64,
    pub associations: u64,
    pub most_nodes: u32,
    pub most_scopes: usize,
}

impl Tally {
    /// One answer more.
    pub fn note(&mut self, answer: &Answer) {
        self.cases += 1;
        match answer {
            Err(refusal) => self.refused[refusal.number as usize] += 1,
            Ok(e) => {
                let has = |kind: u32| e.out.iter().any(|r| r[0] == kind) as u64;
                self.accepted += 1;
                self.bodies += e.scopes.iter().any(|s| s[0] == 1) as u64;
                self.defaults += e.scopes.iter().any(|s| s[0] == 2) as u64;
                self.fetched += e.scopes.iter().any(|s| s[1] > 0) as u64;
                self.externs += has(rows::EXTERN);
                self.roots += e.out.iter().any(|r| r[0] == rows::INSTANCE && r[2] > 0) as u64;
                self.associations += has(rows::ASSOCIATION);
                self.most_nodes = self.most_nodes.max(e.nodes);
                self.most_scopes = self.most_scopes.max(e.scopes.len());
            }
        }
    }
}

impl fmt::Display for Tally {
    fn fmt(&self, f: &mut fmt::Formatter<'_>) -> fmt::Result {
        writeln!(f, "{} cases, {} accepted; {} compared with the original", self.cases, self.accepted, self.compared)?;
        writeln!(
            f,
            "with a default because of an IS to nothing {}, {} of them compared without the fields so bound",
            self.by_is, self.absent
        )?;
        writeln!(
            f,
            "with externs in the library's files {}, {} of them compared as one document",
            self.linked, self.merged
        )?;
        write!(f, "refused:")?;
        for (number, count) in self.refused.iter().enumerate().filter(|(_, c)| **c > 0) {
            write!(f, " {number}: {count}")?;
        }
        writeln!(f)?;
        writeln!(
            f,
            "accepted with a loop through an instance {}, body scopes {}, default scopes {}, a fetched file {}, \
             externs {}, extra roots {}, associations {}; at most {} nodes, {} scopes",
            self.loops,
            self.bodies,
            self.defaults,
            self.fetched,
            self.externs,
            self.roots,
            self.associations,
            self.most_nodes,
            self.most_scopes
        )
    }
}
