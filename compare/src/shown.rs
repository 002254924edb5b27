//! Reckonings in which a limit shows where it must not, or counts otherwise than it says: the pairs must notice each.

use crate::call::{refuse, Answer, Call, Expanded};
use crate::reckon;
use crate::rows::{NODE, STATEMENT};

/// A broken reckoning, and what it does wrong.
pub struct Broken {
    pub what: &'static str,
    pub answer: fn(&Call) -> Answer,
}

/// The true answer, changed where it is accepted.
fn accepted(call: &Call, change: impl Fn(&mut Expanded)) -> Answer {
    let mut answer = reckon::expand(call, None);
    answer.iter_mut().for_each(change);
    answer
}

/// The true answer to the call with other limits; the slices stay.
fn limited(call: &Call, change: impl Fn(&mut Call)) -> Answer {
    let mut other = call.clone();
    change(&mut other);
    other.lent = [u64::MAX; 4];
    reckon::expand(&other, None)
}

/// Some word of a limit, small enough for a column.
fn low(limit: u32) -> u32 {
    limit & 0xFF
}

pub const ALL: &[Broken] = &[
    // The counts.
    Broken { what: "nodes counted from N down", answer: |c| accepted(c, |e| e.nodes = c.max_nodes - e.nodes) },
    Broken { what: "charges counted from K down", answer: |c| accepted(c, |e| e.charges = c.max_rows - e.charges) },
    Broken {
        what: "a charge more where K is not just enough",
        answer: |c| accepted(c, |e| e.charges += (e.charges < c.max_rows) as u32),
    },
    // The document.
    Broken { what: "the header differs by K", answer: |c| accepted(c, |e| e.out[0][1] ^= low(c.max_rows)) },
    Broken {
        what: "the node ids of the top statements from N down",
        answer: |c| {
            accepted(c, |e| {
                let last = c.max_nodes.saturating_sub(1);
                e.out.iter_mut().filter(|r| r[..2] == [STATEMENT, 0]).for_each(|r| r[2] = last - r[2]);
            })
        },
    },
    Broken {
        what: "D as the DEF name of the first node",
        answer: |c| accepted(c, |e| e.out.iter_mut().filter(|r| r[0] == NODE).take(1).for_each(|r| r[2] = c.max_depth)),
    },
    Broken {
        what: "the last row left out where K is just enough",
        answer: |c| accepted(c, |e| e.out.truncate(e.out.len() - (e.charges == c.max_rows) as usize)),
    },
    // The ledger.
    Broken {
        what: "N in the ledger, as the source of the last node",
        answer: |c| accepted(c, |e| e.ledger.iter_mut().next_back().into_iter().for_each(|l| l[2] = c.max_nodes)),
    },
    Broken {
        what: "the ledger from its end, where N is even",
        answer: |c| {
            accepted(c, |e| {
                if c.max_nodes % 2 == 0 {
                    e.ledger.reverse();
                }
            })
        },
    },
    // The scopes.
    Broken {
        what: "the depth left in a scope's entry, as its interface index",
        answer: |c| accepted(c, |e| e.scopes.iter_mut().next_back().into_iter().for_each(|s| s[3] = c.max_depth)),
    },
    Broken {
        what: "scopes after the first in an order by K",
        answer: |c| {
            accepted(c, |e| {
                let turn = c.max_rows as usize % (e.scopes.len() - 1).max(1);
                e.scopes[1..].rotate_left(turn);
            })
        },
    },
    Broken {
        what: "the opening scope counted from K down",
        answer: |c| accepted(c, |e| e.scopes[1..].iter_mut().for_each(|s| s[4] = c.max_rows - s[4])),
    },
    // The slices.
    Broken {
        what: "as many nodes as the ledger has room for",
        answer: |c| accepted(c, |e| e.nodes = e.nodes.max((c.lent[1] / 3) as u32)),
    },
    Broken {
        what: "a charge more where out is longer than it need be",
        answer: |c| accepted(c, |e| e.charges += (c.lent[0] > 8 * c.max_rows as u64) as u32),
    },
    Broken {
        what: "a charge less where work is longer than it need be",
        answer: |c| {
            let needed = Call::needed(c.max_nodes, c.max_depth, c.max_rows)[3];
            accepted(c, |e| e.charges -= (c.lent[3] > needed) as u32)
        },
    },
    Broken {
        what: "1 where scopes is longer than it need be",
        answer: |c| match c.lent[2] > 5 * c.max_rows as u64 {
            true => refuse(1, 0, 0),
            false => reckon::expand(c, None),
        },
    },
    // When a limit is passed.
    Broken {
        what: "8 where the nodes are just N",
        answer: |c| match reckon::expand(c, None) {
            Ok(e) if e.nodes == c.max_nodes => refuse(8, 0, 0),
            answer => answer,
        },
    },
    Broken {
        what: "10 where the charges are just K",
        answer: |c| match reckon::expand(c, None) {
            Ok(e) if e.charges == c.max_rows => refuse(10, 0, 0),
            answer => answer,
        },
    },
    Broken {
        what: "9 where N or K is short",
        answer: |c| match reckon::expand(c, None) {
            Err(r) if matches!(r.number, 8 | 10) => refuse(9, 0, 0),
            answer => answer,
        },
    },
    Broken {
        what: "8 where K is short, 10 where N is",
        answer: |c| match reckon::expand(c, None) {
            Err(r) if r.number == 8 => refuse(10, 0, 0),
            Err(r) if r.number == 10 => refuse(8, 0, 0),
            answer => answer,
        },
    },
    Broken { what: "N by its low eight bits", answer: |c| limited(c, |c| c.max_nodes = low(c.max_nodes)) },
    Broken { what: "D by its low eight bits", answer: |c| limited(c, |c| c.max_depth = low(c.max_depth)) },
    Broken { what: "K by its low eight bits", answer: |c| limited(c, |c| c.max_rows = low(c.max_rows)) },
    Broken { what: "as deep as D falls short of 512", answer: |c| limited(c, |c| c.max_depth = 512 - c.max_depth) },
    // The refusals that no limit changes.
    Broken {
        what: "4 to 7 as 10 where K is 100 or more",
        answer: |c| match reckon::expand(c, None) {
            Err(r) if (4..=7).contains(&r.number) && c.max_rows >= 100 => refuse(10, 0, 0),
            answer => answer,
        },
    },
    Broken {
        what: "the depth as the second place of 7",
        answer: |c| match reckon::expand(c, None) {
            Err(r) if r.number == 7 => refuse(7, r.places[0], c.max_depth),
            answer => answer,
        },
    },
    Broken {
        what: "the row of 3 from K down",
        answer: |c| match reckon::expand(c, None) {
            Err(r) if r.number == 3 => refuse(3, r.places[0], c.max_rows.wrapping_sub(r.places[1])),
            answer => answer,
        },
    },
    Broken {
        what: "2 after 3, where D is over 64",
        answer: |c| match reckon::expand(c, None) {
            Err(r) if r.number == 2 && c.max_depth > 64 => refuse(3, 0, 0),
            answer => answer,
        },
    },
];
