//! What the calls contained, so that nothing that must be tried is missing without notice.

use super::reckon::{document, ANSWER};
use super::{After, Call};
use crate::grammar;
use crate::tree::{Doc, Node};

/// A call with what is reckoned of it.
struct Seen<'a> {
    call: &'a Call,
    after: &'a After,
    /// The document, where it is not malformed.
    doc: Option<&'a Doc>,
}

impl Seen<'_> {
    fn accepted(&self) -> bool {
        self.after.result == 0
    }

    /// The number of nodes of an accepted call.
    fn nodes(&self) -> Option<usize> {
        self.doc.filter(|_| self.accepted()).map(|doc| doc.nodes.len())
    }

    fn any(&self, has: impl Fn(&Node) -> bool) -> bool {
        self.accepted() && self.doc.is_some_and(|doc| doc.nodes.iter().any(has))
    }

    fn refused(&self, number: u32) -> bool {
        self.call.answer >= ANSWER && self.after.result == number
    }

    fn bytes(&self) -> usize {
        self.doc.map_or(0, |doc| doc.nodes.len().div_ceil(59) * 4380)
    }

    fn ledger_is(&self, more: isize) -> bool {
        self.doc.is_some_and(|doc| self.call.ledger.len() as isize == 3 * doc.nodes.len() as isize + more)
    }

    fn rows(&self) -> usize {
        self.call.document.len() / 8
    }

    /// A root sheet, whatever else it is.
    fn is_root(&self) -> bool {
        self.call.document.len() % 8 == 0 && grammar::root(&self.call.document).is_ok()
    }
}

type Shape = (&'static str, fn(&Seen) -> bool);

const SHAPES: [Shape; 33] = [
    ("no nodes", |s| s.nodes() == Some(0)),
    ("no nodes, no bytes lent", |s| s.nodes() == Some(0) && s.call.text == 0),
    ("one node", |s| s.nodes() == Some(1)),
    ("58 nodes", |s| s.nodes() == Some(58)),
    ("59 nodes, a full page", |s| s.nodes() == Some(59)),
    ("60 nodes, one on the second page", |s| s.nodes() == Some(60)),
    ("118 nodes, two full pages", |s| s.nodes() == Some(118)),
    ("119 nodes", |s| s.nodes() == Some(119)),
    ("a page number of five digits", |s| s.nodes().is_some_and(|n| n > 59 * 10_000)),
    ("a node with a DEF name", |s| s.any(|n| n.def.is_some())),
    ("a node without", |s| s.any(|n| n.def.is_none())),
    ("a DEF name of 4294967294", |s| s.any(|n| n.def == Some(u32::MAX - 1))),
    ("a DEF name of 0", |s| s.any(|n| n.def == Some(0))),
    ("a type name of ten digits", |s| s.any(|n| n.type_name >= 1_000_000_000)),
    ("a ledger's word of 4294967295", |s| s.accepted() && s.call.ledger.contains(&u32::MAX)),
    ("nodes with fields, interfaces, statements, marks and an instance", |s| {
        s.any(|n| {
            !n.fields.is_empty()
                && !n.interfaces.is_empty()
                && !n.statements.is_empty()
                && !n.order.is_empty()
                && n.instance.is_some()
        })
    }),
    ("externs behind the nodes", |s| s.nodes().is_some_and(|n| n > 0) && s.doc.is_some_and(|d| !d.externs.is_empty())),
    ("bytes lent past those written", |s| s.accepted() && s.call.text > s.bytes()),
    ("bytes just enough", |s| s.accepted() && s.bytes() > 0 && s.call.text == s.bytes()),
    ("28, a sheet of prototypes", |s| s.refused(28) && s.doc.is_none() && s.is_root() && s.call.work >= 16 * s.rows()),
    ("28, a malformed sheet", |s| s.refused(28) && s.call.document.len() % 8 == 0 && !s.is_root()),
    ("28, words past the last row", |s| s.refused(28) && s.call.document.len() % 8 != 0),
    ("28, work one word too short", |s| {
        s.refused(28) && s.is_root() && s.call.work + 1 == 16 * s.rows() && s.rows() > 0
    }),
    ("28, a ledger of one word too few", |s| s.refused(28) && s.ledger_is(-1)),
    ("28, a ledger of one word too many", |s| s.refused(28) && s.ledger_is(1)),
    ("28, a ledger of one entry too few", |s| s.refused(28) && s.ledger_is(-3)),
    ("28, a ledger of one entry too many", |s| s.refused(28) && s.ledger_is(3)),
    ("28 and 29", |s| s.refused(28) && s.doc.is_some() && s.call.text < s.bytes()),
    ("29, one byte too few", |s| s.refused(29) && s.call.text + 1 == s.bytes()),
    ("29, no bytes lent", |s| s.refused(29) && s.call.text == 0),
    ("an answer of no word", |s| s.call.answer == 0 && s.after.result == 29),
    ("an answer of one word, else accepted", |s| s.call.answer == 1 && s.ledger_is(0) && s.call.text >= s.bytes()),
    ("an answer of more than two words", |s| s.call.answer > ANSWER && s.accepted()),
];

/// Each shape, and whether a call has it.
pub fn shapes(call: &Call, after: &After, note: &mut dyn FnMut(&'static str, bool)) {
    let doc = document(call, None);
    let seen = Seen { call, after, doc: doc.as_ref() };
    SHAPES.iter().for_each(|(name, has)| note(name, has(&seen)));
}
