//! The static library's pages: every byte and word of every call held against the reckoning.

use super::reckon::ANSWER;
use super::{before, byte_before, shapes, After, Call, Pages};
use crate::linked;
use crate::operation::{Guarded, Linked};
use crate::random::Random;

/// Nodes of the large documents.
const LARGE: [usize; 4] = [59_000, 59_001, 300_000, 1_000_000];

/// Many nodes, with room that is just enough and one byte less.
fn large(seed: u64) -> impl Iterator<Item = Call> {
    LARGE.into_iter().flat_map(move |nodes| {
        let r = &mut Random::new(seed, nodes as u64);
        let mut document = vec![1, 5, 0, 0, 0, 0, 0, 0];
        for _ in 0..nodes {
            document.extend([2, r.below(99) as u32, r.of(&[u32::MAX, 7]), 0, 0, 0, 0, 0]);
        }
        document.extend([11, 0, 0, 0, 0, 0, 0, 0]);
        let ledger: Vec<u32> = (0..3 * nodes).map(|_| r.next() as u32 >> r.below(30)).collect();
        let bytes = nodes.div_ceil(59) * 4380;
        let work = 2 * document.len();
        [bytes, bytes - 1].map(|text| Call {
            document: document.clone(),
            ledger: ledger.clone(),
            text,
            work,
            answer: ANSWER,
        })
    })
}

impl Linked for Pages {
    const NAME: &'static str = "pages";

    fn large(seed: u64) -> Box<dyn Iterator<Item = Call>> {
        Box::new(large(seed))
    }

    fn result(after: &After) -> u32 {
        after.result
    }

    fn shapes(call: &Call, after: &After, note: &mut dyn FnMut(&'static str, bool)) {
        shapes::shapes(call, after, note);
    }

    fn differs(call: &Call, expected: &After) -> Option<String> {
        let mut document = Guarded::new(call.document.len(), 0xE7E7_E7E7, |place| call.document[place]);
        let mut ledger = Guarded::new(call.ledger.len(), 0xE7E7_E7E7, |place| call.ledger[place]);
        let mut text = Guarded::new(call.text, 0xE7, byte_before);
        let mut work = Guarded::new(call.work, 0xE7E7_E7E7, |place| place as u32);
        let mut answer = Guarded::new(call.answer, 0xE7E7_E7E7_E7E7_E7E7, before);
        let result = linked::pages(document.slice(), ledger.slice(), text.slice(), work.slice(), answer.slice());
        if result != expected.result {
            return Some(format!("result {result}, not {}", expected.result));
        }
        document
            .differs("document", &call.document)
            .or(ledger.differs("ledger", &call.ledger))
            .or(text.differs("text", &expected.text))
            .or(work.kept_around("work"))
            .or(answer.differs("answer", &expected.answer))
    }
}
