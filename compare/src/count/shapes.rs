//! What the calls contained, so that nothing that must be tried is missing without notice.

use super::reckon::{reached, starts, well, ANSWER, MOST_NAMES, MOST_PROTOCOLS};
use super::{After, Call};
use crate::tree::{Doc, Node};

/// A call with what is reckoned of it.
struct Seen<'a> {
    call: &'a Call,
    after: &'a After,
    /// The documents, where 18 is not given.
    docs: Option<&'a [Doc]>,
}

impl Seen<'_> {
    fn accepted(&self) -> bool {
        self.after.result == 0 && self.call.answer >= ANSWER
    }

    fn refused(&self, number: u32) -> bool {
        self.call.answer >= ANSWER && self.after.result == number
    }

    /// A document of an accepted call.
    fn any(&self, has: impl Fn(&Doc) -> bool) -> bool {
        self.accepted() && self.docs.is_some_and(|docs| docs.iter().any(has))
    }

    /// A node that is reached.
    fn node(&self, has: impl Fn(&Doc, u32, &Node) -> bool) -> bool {
        self.any(|doc| reached(doc, None).iter().any(|id| has(doc, *id, &doc.nodes[*id as usize])))
    }

    fn rows(&self) -> usize {
        self.call.documents.len() / 8
    }

    fn lists(&self) -> bool {
        let (p, n) = (&self.call.protocols, &self.call.names);
        p.len() <= MOST_PROTOCOLS && n.len() <= MOST_NAMES && self.call.totals >= n.len()
    }
}

fn fields(node: &Node) -> Vec<u32> {
    use crate::tree::Binding;
    let value = |f: &crate::tree::Field| match &f.binding {
        Binding::Value(v) => v.ids().to_vec(),
        Binding::Is(_) => Vec::new(),
    };
    node.fields.iter().flat_map(value).collect()
}

fn interfaces(node: &Node) -> Vec<u32> {
    node.interfaces.iter().filter_map(|i| i.value.as_ref()).flat_map(|v| v.ids().to_vec()).collect()
}

type Shape = (&'static str, fn(&Seen) -> bool);

const SHAPES: [Shape; 32] = [
    ("no documents", |s| s.accepted() && s.call.protocols.is_empty()),
    ("no names", |s| s.accepted() && s.call.names.is_empty()),
    ("64 names", |s| s.accepted() && s.call.names.len() == MOST_NAMES),
    ("4,096 documents", |s| s.accepted() && s.call.protocols.len() == MOST_PROTOCOLS),
    ("both protocols in one call", |s| s.accepted() && s.call.protocols.contains(&1) && s.call.protocols.contains(&2)),
    ("a name that no node has", |s| s.accepted() && s.call.names.contains(&u32::MAX)),
    ("a node in its own field", |s| s.node(|_, id, n| fields(n).contains(&id))),
    ("a node in its own interface", |s| s.node(|_, id, n| interfaces(n).contains(&id))),
    ("a loop of two", |s| {
        s.node(|d, id, n| {
            fields(n).iter().any(|j| *j != id && d.nodes.get(*j as usize).is_some_and(|m| fields(m).contains(&id)))
        })
    }),
    ("one id twice in a value", |s| s.node(|_, _, n| fields(n).windows(2).any(|w| w[0] == w[1]))),
    ("a top node mentioned twice", |s| s.any(|d| starts(d).windows(2).any(|w| w[0] == w[1]))),
    ("a top statement that leads nowhere", |s| s.any(|d| starts(d).iter().any(|id| *id as usize >= d.nodes.len()))),
    ("an id of a value that leads nowhere", |s| {
        s.node(|d, _, n| fields(n).iter().any(|id| *id as usize >= d.nodes.len()))
    }),
    ("a node that is not reached", |s| s.any(|d| reached(d, None).len() < d.nodes.len())),
    ("a node that an extra root alone leads to", |s| {
        s.node(|d, _, n| {
            let roots = n.instance.as_ref().map_or(&[][..], |r| &r.roots);
            roots.iter().any(|id| (*id as usize) < d.nodes.len() && !reached(d, None).contains(id))
        })
    }),
    ("a node that an association alone leads to", |s| {
        s.node(|d, _, n| {
            let ends = n.instance.as_ref().map_or(&[][..], |r| &r.associations);
            ends.iter().any(|a| (a[1] as usize) < d.nodes.len() && !reached(d, None).contains(&a[1]))
        })
    }),
    ("no top Node statement", |s| s.any(|d| starts(d).is_empty() && !d.nodes.is_empty())),
    ("a total over 255", |s| s.accepted() && s.after.totals.iter().take(s.call.names.len()).any(|t| *t > 255)),
    ("totals lent past the names", |s| s.accepted() && s.call.totals > s.call.names.len()),
    ("17, a protocol 0", |s| s.refused(17) && s.call.protocols.contains(&0)),
    ("17, a protocol 3", |s| s.refused(17) && s.call.protocols.contains(&3)),
    ("17, 4,097 protocols", |s| s.refused(17) && s.call.protocols.len() == MOST_PROTOCOLS + 1),
    ("17, 65 names", |s| s.refused(17) && s.call.names.len() == MOST_NAMES + 1),
    ("17, one total too few", |s| s.refused(17) && s.call.totals + 1 == s.call.names.len()),
    ("17, a name twice", |s| s.refused(17) && s.lists() && s.call.protocols.iter().all(|p| *p == 1 || *p == 2)),
    ("17 and 18", |s| s.refused(17) && s.docs.is_none()),
    ("18, words past the last row", |s| s.refused(18) && s.call.documents.len() % 8 != 0),
    ("18, work one word too short", |s| s.refused(18) && s.rows() > 0 && s.call.work + 1 == 16 * s.rows()),
    ("18, one protocol more than documents", |s| {
        s.refused(18) && (0..s.rows()).filter(|r| s.call.documents[8 * r] == 1).count() + 1 == s.call.protocols.len()
    }),
    ("18, one document more than protocols", |s| {
        s.refused(18) && (0..s.rows()).filter(|r| s.call.documents[8 * r] == 1).count() == s.call.protocols.len() + 1
    }),
    ("an answer of one word", |s| s.call.answer == 1 && s.after.result == 17),
    ("an answer of more than two words", |s| s.call.answer > ANSWER && s.accepted()),
];

/// Each shape, and whether a call has it.
pub fn shapes(call: &Call, after: &After, note: &mut dyn FnMut(&'static str, bool)) {
    let docs = well(call, None);
    let seen = Seen { call, after, docs: docs.as_deref() };
    SHAPES.iter().for_each(|(name, has)| note(name, has(&seen)));
}
