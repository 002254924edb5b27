//! The static library's moving totals: every word of every call held against the reckoning.

use super::reckon::{ANSWER, MOST_COUNT};
use super::{before, shapes, After, Call, Moving};
use crate::linked;
use crate::operation::{Guarded, Linked};
use crate::random::Random;

const GUARD_WORD: u64 = 0xE7E7_E7E7_E7E7_E7E7;
/// Legs of the long runs, and their widths.
const LONG: usize = 1_000_000;
const LONG_WIDTHS: [u32; 4] = [1, 2, 63, 64];

/// Long runs: random counts, then all at the limit, then one over it at the end.
fn long(seed: u64) -> impl Iterator<Item = Call> {
    LONG_WIDTHS.into_iter().flat_map(move |width| {
        let r = &mut Random::new(seed, width as u64);
        let random = (0..LONG).map(|_| r.next() % (MOST_COUNT + 1)).collect();
        let mut last = vec![MOST_COUNT; LONG];
        last[LONG - 1] += 1;
        [random, vec![MOST_COUNT; LONG], last].map(|counts| Call { counts, width, totals: LONG, answer: ANSWER })
    })
}

impl Linked for Moving {
    const NAME: &'static str = "moving totals";

    fn large(seed: u64) -> Box<dyn Iterator<Item = Call>> {
        Box::new(long(seed))
    }

    fn result(after: &After) -> u32 {
        after.result
    }

    fn shapes(call: &Call, after: &After, note: &mut dyn FnMut(&'static str, bool)) {
        shapes::shapes(call, after, note);
    }

    fn differs(call: &Call, expected: &After) -> Option<String> {
        let mut counts = Guarded::new(call.counts.len(), GUARD_WORD, |place| call.counts[place]);
        let mut totals = Guarded::new(call.totals, GUARD_WORD, before);
        let mut answer = Guarded::new(call.answer, GUARD_WORD, before);
        let result = linked::moving(counts.slice(), call.width, totals.slice(), answer.slice());
        if result != expected.result {
            return Some(format!("result {result}, not {}", expected.result));
        }
        counts
            .differs("counts", &call.counts)
            .or(totals.differs("totals", &expected.totals))
            .or(answer.differs("answer", &expected.answer))
    }
}
