//! The part of demand 3 that speaks of the output's rows: no PROTO and no instance, ids below the node count, limits kept.

use crate::call::{Call, Expanded};
use crate::grammar;
use crate::rows::*;

/// The output is an expanded document within its limits.
pub fn check(call: &Call, answer: &Expanded) -> Result<(), String> {
    grammar::document(&words_of(&answer.out), true).map_err(|row| format!("output row {row} doesn't fit"))?;
    let count = |kind: u32| answer.out.iter().filter(|r| r[0] == kind).count();
    if count(NODE) != answer.nodes as usize || answer.nodes > call.max_nodes {
        return Err("the node count".into());
    }
    if answer.out.len() > answer.charges as usize || answer.charges > call.max_rows {
        return Err("rows, charges and their limit".into());
    }
    let (nodes, externs) = (answer.nodes, count(EXTERN) as u32);
    let mut top = false;
    for (at, row) in answer.out.iter().enumerate() {
        top |= row[0] == TOP;
        let wrong = match *row {
            [PROTO, ..] | [STATEMENT, 1, ..] => "a PROTO is left",
            [NODE, _, _, 1, ..] => "an instance is left",
            [STATEMENT, 0 | 4, ..] if !top => "a statement that a node may not hold",
            [INTERFACE, _, _, _, is, _, class, _] if is != NONE && class != 0 => "an interface with an IS and a value",
            [STATEMENT, 0, id, ..] | [ID, id, ..] | [ASSOCIATION, _, id, ..] if id >= nodes => "a node id",
            [STATEMENT, 3, .., from, to] if [from, to].iter().any(|id| *id >= nodes && *id != NONE) => "a route end",
            [NODE, _, _, 2, id, ..] | [STATEMENT, 2, id, ..] if id >= externs => "an extern id",
            _ => continue,
        };
        return Err(format!("output row {at}: {wrong}"));
    }
    Ok(())
}
