//! The calls that are tried: every small run, every width about its run's length, and random ones, one in eight damaged.

use super::reckon::{ANSWER, MOST_COUNT, MOST_WIDTH};
use super::Call;
use crate::random::Random;

/// Runs of up to so many legs, with counts below `DIGITS`: each of them.
const SMALL_LEGS: u32 = 6;
const DIGITS: u64 = 3;
/// Widths of the small runs.
const SMALL_WIDTHS: u32 = 8;
/// Every width up to this one, and two far ones.
const WIDTHS: u32 = 70;
const FAR_WIDTHS: [u32; 2] = [1 << 31, u32::MAX];
const MOST_LEGS: usize = 200;

/// A run of `legs` counts, by its number.
fn digits(mut number: u64, legs: u32) -> Vec<u64> {
    (0..legs)
        .map(|_| {
            let digit = number % DIGITS;
            number /= DIGITS;
            digit
        })
        .collect()
}

/// How many totals a run has.
fn places(legs: usize, width: u32) -> usize {
    (legs + 1).saturating_sub(width.max(1) as usize)
}

/// The same run with one total too few, just enough and two more.
fn lent(counts: Vec<u64>, width: u32) -> impl Iterator<Item = Call> {
    let needed = places(counts.len(), width);
    [needed.checked_sub(1), Some(needed), Some(needed + 2)].into_iter().flatten().map(move |totals| Call {
        counts: counts.clone(),
        width,
        totals,
        answer: ANSWER,
    })
}

/// Every run of few legs with small counts, and every width.
fn small() -> impl Iterator<Item = Call> {
    (0..=SMALL_LEGS).flat_map(|legs| {
        (0..DIGITS.pow(legs))
            .flat_map(move |number| (0..SMALL_WIDTHS).flat_map(move |width| lent(digits(number, legs), width)))
    })
}

/// Every width with runs about as long, of counts at the limit.
fn widths() -> impl Iterator<Item = Call> {
    (0..=WIDTHS).chain(FAR_WIDTHS).flat_map(|width| {
        let middle = width.min(WIDTHS) as usize;
        (middle.saturating_sub(2)..middle + 4).flat_map(move |legs| {
            [MOST_COUNT, MOST_COUNT + 1].into_iter().flat_map(move |count| lent(vec![count; legs], width))
        })
    })
}

/// A random call.
fn random(seed: u64, number: u64) -> Call {
    let r = &mut Random::new(seed, number);
    let width = match r.below(20) {
        0 => 0,
        1 => MOST_WIDTH + r.range(1, 3) as u32,
        2 => r.next() as u32,
        3 => 1,
        4 => MOST_WIDTH,
        5..=9 => r.range(1, 8) as u32,
        _ => r.range(1, MOST_WIDTH as usize) as u32,
    };
    let legs = match r.below(10) {
        0 => 0,
        1 => width.min(WIDTHS) as usize,
        2 => (width.min(WIDTHS) as usize).saturating_sub(1),
        _ => r.below(MOST_LEGS),
    };
    let most = r.of(&[0, 1, 2, 5, 100, 70_000, MOST_COUNT]);
    let kind = r.below(4);
    let mut counts: Vec<u64> = (0..legs)
        .map(|leg| match kind {
            0 => most,
            1 => (leg as u64).min(most),
            _ if most == MOST_COUNT => r.next() % (MOST_COUNT + 1),
            _ => r.next() % (most + 1),
        })
        .collect();
    if legs > 0 && r.percent(12) {
        let place = r.of(&[0, legs - 1, legs / 2]);
        counts[place] = r.of(&[MOST_COUNT + 1, MOST_COUNT + 2, 1 << 63, u64::MAX, 0x1_0000_0000_0000]);
    }
    let needed = places(legs, width);
    let totals = match r.below(8) {
        0 => needed.saturating_sub(1),
        1 => 0,
        2 => r.below(needed + 2),
        3 => needed + r.below(40),
        _ => needed,
    };
    let answer = if r.percent(6) { r.below(ANSWER + 6) } else { ANSWER };
    Call { counts, width, totals, answer }
}

/// The calls of a seed, one after the other.
pub fn calls(count: u64, seed: u64) -> Box<dyn Iterator<Item = Call>> {
    Box::new(small().chain(widths()).chain((0..count).map(move |number| random(seed, number))))
}
