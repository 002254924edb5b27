//! The static library's counts: every word of every call held against the reckoning.

use super::reckon::ANSWER;
use super::{before, shapes, After, Call, Count};
use crate::linked;
use crate::operation::{Guarded, Linked};

/// A chain, one node mentioned often, many documents, at some size; under both protocols.
fn large() -> impl Iterator<Item = Call> {
    let sheets = [super::bench::chain(200_000), super::bench::often(300_000), super::bench::flat(100_000)];
    sheets.into_iter().flat_map(|documents| {
        let many = documents.chunks(8).filter(|row| row[0] == 1).count();
        [1, 2].map(|protocol| Call {
            documents: documents.clone(),
            protocols: vec![protocol; many],
            names: (0..64).collect(),
            totals: 65,
            work: 2 * documents.len(),
            answer: ANSWER,
        })
    })
}

impl Linked for Count {
    const NAME: &'static str = "count";

    fn large(_: u64) -> Box<dyn Iterator<Item = Call>> {
        Box::new(large())
    }

    fn result(after: &After) -> u32 {
        after.result
    }

    fn shapes(call: &Call, after: &After, note: &mut dyn FnMut(&'static str, bool)) {
        shapes::shapes(call, after, note);
    }

    fn differs(call: &Call, expected: &After) -> Option<String> {
        let mut documents = Guarded::new(call.documents.len(), 0xE7E7_E7E7, |place| call.documents[place]);
        let mut protocols = Guarded::new(call.protocols.len(), 0xE7E7_E7E7, |place| call.protocols[place]);
        let mut names = Guarded::new(call.names.len(), 0xE7E7_E7E7, |place| call.names[place]);
        let mut totals = Guarded::new(call.totals, 0xE7E7_E7E7_E7E7_E7E7, before);
        let mut work = Guarded::new(call.work, 0xE7E7_E7E7, |place| place as u32);
        let mut answer = Guarded::new(call.answer, 0xE7E7_E7E7_E7E7_E7E7, before);
        let result = linked::count(
            documents.slice(),
            protocols.slice(),
            names.slice(),
            totals.slice(),
            work.slice(),
            answer.slice(),
        );
        if result != expected.result {
            return Some(format!("result {result}, not {}", expected.result));
        }
        documents
            .differs("documents", &call.documents)
            .or(protocols.differs("protocols", &call.protocols))
            .or(names.differs("names", &call.names))
            .or(totals.differs("totals", &expected.totals))
            .or(work.kept_around("work"))
            .or(answer.differs("answer", &expected.answer))
    }
}
