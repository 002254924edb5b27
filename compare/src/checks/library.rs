//! The static library's check: every word of every call held against the reckoning.

use super::reckon::{ANSWER, FORM_DOCUMENTS, FORM_PROTOS, FORM_ROOT};
use super::{before, shapes, After, Call, Checks};
use crate::linked;
use crate::operation::{Guarded, Linked};

/// Documents and protos of the large sheets.
const LARGE: usize = 300_000;

/// Many documents and many protos, whole, with one row missing and with one spoilt at the end.
fn large() -> impl Iterator<Item = Call> {
    let documents = [[1, 5, 0, 0, 0, 0, 0, 0], [2, 7, u32::MAX, 0, 0, 0, 0, 0], [11, 0, 0, 0, 0, 0, 0, 0]];
    let protos = [[7, 4, 0, 0, 0, 0, 0, 0], [4, 2, 13, 9, u32::MAX, 13, 2, 1], [9, 1, 0, 0, 0, 0, 0, 0]];
    let kinds = [(FORM_DOCUMENTS, documents), (FORM_PROTOS, protos), (FORM_ROOT, documents)];
    kinds.into_iter().flat_map(|(form, rows)| {
        let words: Vec<u32> = (0..LARGE).flat_map(|_| rows).flatten().collect();
        let short = words[..words.len() - 8].to_vec();
        let mut spoilt = words.clone();
        let last = spoilt.len() - 1;
        spoilt[last] = 1;
        [words, short, spoilt].map(|words| Call { words, form, answer: ANSWER })
    })
}

impl Linked for Checks {
    const NAME: &'static str = "check";

    fn large(_: u64) -> Box<dyn Iterator<Item = Call>> {
        Box::new(large())
    }

    fn result(after: &After) -> u32 {
        after.result
    }

    fn shapes(call: &Call, after: &After, note: &mut dyn FnMut(&'static str, bool)) {
        shapes::shapes(call, after, note);
    }

    fn differs(call: &Call, expected: &After) -> Option<String> {
        let mut words = Guarded::new(call.words.len(), 0xE7E7_E7E7, |place| call.words[place]);
        let mut answer = Guarded::new(call.answer, 0xE7E7_E7E7_E7E7_E7E7, before);
        let result = linked::check(words.slice(), call.form, answer.slice());
        if result != expected.result {
            return Some(format!("result {result}, not {}", expected.result));
        }
        words.differs("words", &call.words).or(answer.differs("answer", &expected.answer))
    }
}
