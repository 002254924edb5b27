//! A second reckoning of an accepted answer's charges: not step by step, but by parts, from the output, the sheets and the
//! scope list with the instance that opened each scope.

use std::collections::HashMap;

use crate::call::{Call, Expanded};
use crate::grammar;
use crate::rows::*;
use crate::tree::*;

/// The number of charges that the parts of an answer add up to.
pub fn by_parts(call: &Call, answer: &Expanded) -> Result<usize, usize> {
    let root = grammar::root(&call.root)?;
    let files = grammar::library(&call.library)?;
    let docs: Vec<&Doc> = std::iter::once(&root).chain(files.iter().map(|f| &f.doc)).collect();
    // Each output row but those of records, which instances pay for; each node's map entry; each scope.
    let mut total = rows_outside_records(&answer.out) + answer.nodes as usize + answer.scopes.len();
    // Each IS of a node copied, written as an association or not.
    for [_, document, id] in &answer.ledger {
        let node = &docs[*document as usize].nodes[*id as usize];
        total += node.fields.iter().filter(|f| matches!(f.binding, Binding::Is(_))).count();
        total += node.interfaces.iter().filter(|i| i.is.is_some()).count();
    }
    // Each instance: map entry of the root, extra roots, routes, record, and the values it stores.
    let mut lengths: Vec<HashMap<u32, usize>> = Vec::new();
    for (entry, instance) in answer.scopes.iter().zip(&answer.instances) {
        let [kind, document, proto, _, opener] = entry.map(|n| n as usize);
        let mut stored = HashMap::new();
        if kind == 1 {
            let proto = &docs[document].protos[proto];
            let pays = |s: &&Statement| matches!(s, Statement::Node(_) | Statement::Route(_));
            total += proto.body.iter().filter(pays).count() + 1;
            let node = &docs[answer.scopes[opener][1] as usize].nodes[*instance as usize];
            for interface in &proto.interfaces {
                let given = node.fields.iter().rfind(|f| f.name == interface.name).map(|f| &f.binding);
                let given = match given {
                    Some(Binding::Value(v)) => Some(v.ids().len()),
                    Some(Binding::Is(target)) => lengths[opener].get(target).copied(),
                    None => None,
                };
                if let Some(ids) = given.or(interface.value.as_ref().map(|v| v.ids().len())) {
                    total += ids + 1;
                    stored.insert(interface.name, ids);
                }
            }
        }
        lengths.push(stored);
    }
    Ok(total)
}

/// Rows that are neither an instance row nor counted by one.
fn rows_outside_records(rows: &[Row]) -> usize {
    let counted = |r: &&Row| r[0] == INSTANCE;
    let inside: usize = rows.iter().filter(counted).map(|r| 1 + (r[2] + r[3] + r[4]) as usize).sum();
    rows.len() - inside
}
