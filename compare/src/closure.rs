//! Demand 3, checked on an accepted answer. What is reached is searched from the sheets and the scope list; the ledger and
//! the node count are only held against it. Which defaults are taken depends on the names that have a value in a scope, and
//! so on the instance that opened it, which is told beside the scope list.

use std::collections::{HashMap, HashSet};

use crate::call::{Call, Expanded};
use crate::grammar;
use crate::output;
use crate::picks::{picks, Pick, Picks};
use crate::tree::*;

/// What the check saw on the way, for the summary.
#[derive(Clone, Copy, Debug, Default)]
pub struct Seen {
    /// Some instance reached reaches itself.
    pub loops: bool,
    /// Instances reached, over all scopes.
    pub instances: usize,
    /// Interfaces of these whose default is taken.
    pub defaults: usize,
    /// Some default is taken because of an IS to nothing.
    pub by_is: bool,
}

struct Sheets<'a> {
    docs: Vec<&'a Doc>,
    picks: Picks,
}

impl<'a> Sheets<'a> {
    /// The PROTO of an instance; nothing for a plain node.
    fn prototype(&self, document: usize, node: &Node) -> Option<(usize, u32)> {
        match node.origin {
            Origin::Proto(id) => Some((document, id)),
            Origin::Extern(id) => self.picks.get(document, id).map(Pick::prototype),
            _ => None,
        }
    }

    fn node(&self, document: usize, id: u32) -> Result<&'a Node, String> {
        self.docs[document].nodes.get(id as usize).ok_or(format!("document {document}: reached id {id} is no node"))
    }

    fn proto(&self, document: usize, id: u32) -> Result<&'a Proto, String> {
        self.docs
            .get(document)
            .and_then(|d| d.protos.get(id as usize))
            .ok_or(format!("document {document}: no PROTO {id}"))
    }

    /// The ids that one step leads to.
    fn next(&self, document: usize, id: u32) -> Result<Vec<u32>, String> {
        let node = self.node(document, id)?;
        let mut ids = Vec::new();
        match self.prototype(document, node) {
            None => {
                for field in &node.fields {
                    if let Binding::Value(v) = &field.binding {
                        ids.extend_from_slice(v.ids());
                    }
                }
                for interface in &node.interfaces {
                    if let (None, Some(v)) = (interface.is, &interface.value) {
                        ids.extend_from_slice(v.ids());
                    }
                }
            }
            Some((d, p)) => {
                for interface in &self.proto(d, p)?.interfaces {
                    if let Some(Binding::Value(v)) = given(node, interface) {
                        ids.extend_from_slice(v.ids());
                    }
                }
            }
        }
        Ok(ids)
    }

    /// The least set that holds the starts and is closed under the steps.
    fn reached(&self, document: usize, starts: Vec<u32>) -> Result<HashSet<u32>, String> {
        let mut set = HashSet::new();
        let mut open = starts;
        while let Some(id) = open.pop() {
            if set.insert(id) {
                open.extend(self.next(document, id)?);
            }
        }
        Ok(set)
    }

    /// The names that have a value in a body scope: its instance's field gives it, or the PROTO has a default.
    fn names(&self, opener: &Opened, entry: [u32; 5], instance: u32) -> Result<HashSet<u32>, String> {
        let [_, document, proto, ..] = entry.map(|n| n as usize);
        let node = self.node(opener.document, instance)?;
        if self.prototype(opener.document, node) != Some((document, proto as u32))
            || !opener.reached.contains(&instance)
        {
            return Err(format!("the instance {instance} of a body scope"));
        }
        let interfaces = self.proto(document, proto as u32)?.interfaces.iter();
        let valued = interfaces.filter(|i| gives(given(node, i), &opener.names) || i.value.is_some());
        Ok(valued.map(|i| i.name).collect())
    }

    /// The starts of a scope, from its entry.
    fn starts(&self, entry: [u32; 5]) -> Result<Vec<u32>, String> {
        let [kind, document, proto, index, _] = entry;
        let nodes = |statements: &[Statement]| {
            statements.iter().filter_map(|s| if let Statement::Node(id) = s { Some(*id) } else { None }).collect()
        };
        match kind {
            0 => Ok(nodes(&self.docs[0].top)),
            1 => Ok(nodes(&self.proto(document as usize, proto)?.body)),
            2 => {
                let proto = self.proto(document as usize, proto)?;
                let value = proto.interfaces.get(index as usize).and_then(|i| i.value.as_ref());
                Ok(value.ok_or("a default scope of no default")?.ids().to_vec())
            }
            _ => Err(format!("scope kind {kind}")),
        }
    }
}

/// The last field that an instance has for an interface.
fn given<'a>(node: &'a Node, interface: &Interface) -> Option<&'a Binding> {
    node.fields.iter().rfind(|f| f.name == interface.name).map(|f| &f.binding)
}

/// Whether a field gives a value in a scope where these names have one.
fn gives(field: Option<&Binding>, names: &HashSet<u32>) -> bool {
    match field {
        Some(Binding::Value(_)) => true,
        Some(Binding::Is(target)) => names.contains(target),
        None => false,
    }
}

/// A scope as the search found it: its document, what is reached in it, and the names that have a value in it.
struct Opened {
    document: usize,
    reached: HashSet<u32>,
    names: HashSet<u32>,
}

/// Every sentence of demand 3 on one accepted answer.
pub fn check(call: &Call, answer: &Expanded) -> Result<Seen, String> {
    let root = grammar::root(&call.root).map_err(|_| "the root doesn't fit")?;
    let files = grammar::library(&call.library).map_err(|_| "the library doesn't fit")?;
    let met = picks(&root, &files, None);
    let picks = met.by_table(&root, &files);
    if picks != met {
        return Err("a pick as it is met, and by the final table".into());
    }
    let sheets = Sheets { docs: std::iter::once(&root).chain(files.iter().map(|f| &f.doc)).collect(), picks };
    output::check(call, answer)?;
    for [_, document, id] in &answer.ledger {
        let document = *document as usize;
        if document >= sheets.docs.len() || sheets.prototype(document, sheets.node(document, *id)?).is_some() {
            return Err("an instance is left, by its ledger source".into());
        }
    }
    let (seen, plain) = scopes(answer, &sheets)?;
    ledger(answer, plain)?;
    Ok(seen)
}

/// A plain node reached: scope, document, source id.
type Plain = HashSet<[u32; 3]>;

/// Scope entries with how often each stands in the list.
type Entries = HashMap<[u32; 5], usize>;

/// The search in every scope: the plain nodes reached, and the scopes that the instances reached open.
fn scopes(answer: &Expanded, sheets: &Sheets) -> Result<(Seen, Plain), String> {
    let entries = &answer.scopes;
    if entries.first() != Some(&[0, 0, 0, 0, 0]) || entries.len() != answer.instances.len() {
        return Err("scope 0 is the root file, and each has its instance".into());
    }
    let mut plain = Plain::new();
    let mut seen = Seen::default();
    // What the instances reached ask for: a body each, and a default scope for each default that is taken.
    let mut wanted = Entries::new();
    let mut list: Vec<Opened> = Vec::new();
    for (number, (entry, instance)) in entries.iter().zip(&answer.instances).enumerate() {
        if (number > 0) != (entry[0] != 0) || entry[4] as usize >= number.max(1) || (entry[0] != 2 && entry[3] != 0) {
            return Err(format!("scope entry {number}"));
        }
        let document = entry[1] as usize;
        let names =
            if entry[0] == 1 { sheets.names(&list[entry[4] as usize], *entry, *instance)? } else { HashSet::new() };
        let scope = Opened { document, reached: sheets.reached(document, sheets.starts(*entry)?)?, names };
        for id in &scope.reached {
            let node = sheets.node(document, *id)?;
            let Some((d, p)) = sheets.prototype(document, node) else {
                plain.insert([number as u32, entry[1], *id]);
                continue;
            };
            seen.instances += 1;
            seen.loops |= sheets.reached(document, sheets.next(document, *id)?)?.contains(id);
            *wanted.entry([1, d as u32, p, 0, number as u32]).or_default() += 1;
            for (index, interface) in sheets.proto(d, p)?.interfaces.iter().enumerate() {
                let field = given(node, interface);
                if interface.value.is_some() && !gives(field, &scope.names) {
                    seen.defaults += 1;
                    seen.by_is |= field.is_some();
                    *wanted.entry([2, d as u32, p, index as u32, number as u32]).or_default() += 1;
                }
            }
        }
        list.push(scope);
    }
    opens(entries, &wanted, &seen)?;
    Ok((seen, plain))
}

/// Only a loop doubles a pod, or a default: the scopes opened are those that the instances reached ask for.
fn opens(entries: &[[u32; 5]], wanted: &Entries, seen: &Seen) -> Result<(), String> {
    let mut opened = Entries::new();
    for entry in &entries[1..] {
        *opened.entry(*entry).or_default() += 1;
    }
    for (kind, what, asked) in [(1, "body scopes", seen.instances), (2, "default scopes", seen.defaults)] {
        let count = entries.iter().filter(|e| e[0] == kind).count();
        if !seen.loops && count != asked {
            return Err(format!("{count} {what}, {asked} asked for by the instances reached"));
        }
    }
    let each = wanted.iter().all(|(k, n)| opened.get(k).is_some_and(|m| m >= n));
    if opened.len() != wanted.len() || !each {
        return Err("the scopes do not belong to the instances reached".into());
    }
    Ok(())
}

/// The node count is the sum of the plain nodes reached, and the ledger has each once.
fn ledger(answer: &Expanded, plain: Plain) -> Result<(), String> {
    if answer.nodes as usize != plain.len() {
        return Err(format!("{} nodes, {} plain nodes reached", answer.nodes, plain.len()));
    }
    let entries: Plain = answer.ledger.iter().copied().collect();
    if answer.ledger.len() != plain.len() || entries != plain {
        return Err("the ledger has not each plain node reached exactly once".into());
    }
    Ok(())
}
