//! What the calls contained, so that nothing that must be tried is missing without notice.

use super::reckon::{ANSWER, MOST_COUNT, MOST_WIDTH};
use super::{After, Call};

/// A shape by its name, and whether a call with what is reckoned of it has it.
type Shape = (&'static str, fn(&Call, &After) -> bool);

fn accepted(call: &Call, after: &After) -> bool {
    after.result == 0 && call.answer >= ANSWER
}

/// The totals written, in an accepted call.
fn written<'a>(call: &Call, after: &'a After) -> &'a [u64] {
    if accepted(call, after) {
        &after.totals[..after.answer[1] as usize]
    } else {
        &[]
    }
}

fn largest(call: &Call, after: &After) -> Option<(u64, usize)> {
    let found = !written(call, after).is_empty();
    found.then(|| (after.answer[2], after.answer[3] as usize))
}

fn over(call: &Call) -> bool {
    call.counts.iter().any(|count| *count > MOST_COUNT)
}

fn wrong_width(call: &Call) -> bool {
    call.width == 0 || call.width > MOST_WIDTH
}

fn short_run(call: &Call) -> bool {
    call.counts.len() < call.width as usize
}

fn few(call: &Call) -> bool {
    call.totals < (call.counts.len() + 1).saturating_sub(call.width.max(1) as usize)
}

fn refused(number: u32, call: &Call, after: &After) -> bool {
    call.answer >= ANSWER && after.result == number
}

const SHAPES: [Shape; 38] = [
    ("accepted, with totals", |c, a| !written(c, a).is_empty()),
    ("a width of 1", |c, a| c.width == 1 && !written(c, a).is_empty()),
    ("a width of 64", |c, a| c.width == 64 && !written(c, a).is_empty()),
    ("a run of exactly W legs", |c, a| accepted(c, a) && c.counts.len() == c.width as usize),
    ("a run one leg shorter than W", |c, a| accepted(c, a) && c.counts.len() + 1 == c.width as usize),
    ("an empty run", |c, a| accepted(c, a) && c.counts.is_empty()),
    ("an empty run, W 64", |c, a| accepted(c, a) && c.counts.is_empty() && c.width == 64),
    ("a run shorter than W, no totals lent", |c, a| accepted(c, a) && short_run(c) && c.totals == 0),
    ("two equal largest totals", |c, a| {
        largest(c, a).is_some_and(|(l, _)| written(c, a).iter().filter(|t| **t == l).count() > 1)
    }),
    ("every total 0", |c, a| written(c, a).len() > 1 && largest(c, a).is_some_and(|(l, _)| l == 0)),
    ("the largest at place 0, then smaller ones", |c, a| {
        largest(c, a).is_some_and(|(l, p)| p == 0 && written(c, a).iter().any(|t| *t < l))
    }),
    ("the largest at the last place", |c, a| largest(c, a).is_some_and(|(_, p)| p > 0 && p + 1 == written(c, a).len())),
    ("the largest in between", |c, a| largest(c, a).is_some_and(|(_, p)| p > 0 && p + 1 < written(c, a).len())),
    ("a total that goes down", |c, a| written(c, a).windows(2).any(|t| t[1] < t[0])),
    ("a count of 4294967295", |c, a| accepted(c, a) && c.counts.contains(&MOST_COUNT)),
    ("a total over 32 bits", |c, a| written(c, a).iter().any(|t| *t > MOST_COUNT)),
    ("64 counts of 4294967295 in a total", |c, a| written(c, a).contains(&(MOST_COUNT * 64))),
    ("totals lent past those written", |c, a| accepted(c, a) && c.totals > written(c, a).len()),
    ("totals just enough", |c, a| !written(c, a).is_empty() && c.totals == written(c, a).len()),
    ("25, W 0", |c, a| refused(25, c, a) && c.width == 0),
    ("25, W 65", |c, a| refused(25, c, a) && c.width == 65),
    ("25, W 4294967295", |c, a| refused(25, c, a) && c.width == u32::MAX),
    ("25 and 26", |c, a| refused(25, c, a) && over(c) && !few(c)),
    ("25 and 27", |c, a| refused(25, c, a) && !over(c) && few(c)),
    ("25, 26 and 27", |c, a| refused(25, c, a) && over(c) && few(c)),
    ("25, an empty run", |c, a| refused(25, c, a) && c.counts.is_empty()),
    ("26, a count of 4294967296", |c, a| refused(26, c, a) && c.counts.contains(&(MOST_COUNT + 1))),
    ("26, a count of 18446744073709551615", |c, a| refused(26, c, a) && c.counts.contains(&u64::MAX)),
    ("26, the first leg's alone", |c, a| {
        refused(26, c, a)
            && c.counts.len() > 1
            && c.counts[0] > MOST_COUNT
            && c.counts[1..].iter().all(|n| *n <= MOST_COUNT)
    }),
    ("26, the last leg's alone", |c, a| {
        refused(26, c, a)
            && c.counts.len() > 1
            && c.counts.iter().position(|n| *n > MOST_COUNT) == Some(c.counts.len() - 1)
    }),
    ("26 in a run shorter than W", |c, a| refused(26, c, a) && short_run(c)),
    ("26 and 27", |c, a| refused(26, c, a) && few(c)),
    ("27, one total too few", |c, a| {
        refused(27, c, a) && c.totals + c.width as usize == c.counts.len() && !wrong_width(c) && !over(c)
    }),
    ("27, no total lent", |c, a| refused(27, c, a) && c.totals == 0),
    ("an answer of no word", |c, a| c.answer == 0 && a.result == 27),
    ("an answer of three words, else accepted", |c, _| c.answer == 3 && !wrong_width(c) && !over(c) && !few(c)),
    ("an answer of three words, else refused", |c, _| c.answer == 3 && wrong_width(c)),
    ("an answer of more than four words", |c, a| c.answer > ANSWER && a.result == 0),
];

/// Each shape, and whether a call has it.
pub fn shapes(call: &Call, after: &After, note: &mut dyn FnMut(&'static str, bool)) {
    SHAPES.iter().for_each(|(name, has)| note(name, has(call, after)));
}
