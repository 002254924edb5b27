//! The moving totals, from the text of document 02: every total a plain sum of its own. And the same broken on purpose.

use super::{before, is, After, Call};

pub const MOST_WIDTH: u32 = 64;
pub const MOST_COUNT: u64 = 4_294_967_295;
/// The words of an answer: refusal, totals, largest, place.
pub const ANSWER: usize = 4;
/// What an answer of fewer words gives.
const SHORT_ANSWER: u32 = 27;

#[derive(Clone, Copy, Debug, PartialEq, Eq)]
pub enum Mutant {
    WindowTooWide,
    WindowTooNarrow,
    LastOfEqual,
    LargeCountLetBy,
    LargestCountRefused,
    FirstTotalMissed,
    LastTotalMissed,
    WidthZeroLetBy,
    Width65LetBy,
    Width64Refused,
    CountBeforeWidth,
    RoomBeforeCount,
    RoomBeforeWidth,
    ShortRunRefused,
    ShortRunSkipsCounts,
    OneTotalMoreAsked,
    RoomForEveryLeg,
    FewTotalsWritten,
    PlaceFromOne,
    PlaceOfTheLeg,
    LargestCount,
    TotalsOf32Bits,
    LargestOf32Bits,
    PlaceOfZerosLast,
    LegsCounted,
    RefusalWrites,
    TotalsPastCleared,
    NumbersOfARefusal,
    AnswerPastCleared,
    ShortAnswerWritten,
    ShortAnswerAfterTheRest,
    ShortAnswerWritesTotals,
}

/// Each with what it does wrong.
pub const MUTANTS: &[(Mutant, &str)] = &[
    (Mutant::WindowTooWide, "the window is one leg too wide"),
    (Mutant::WindowTooNarrow, "the window is one leg too narrow"),
    (Mutant::LastOfEqual, "the last of two equal largest totals is told"),
    (Mutant::LargeCountLetBy, "a count of 4294967296 is let by"),
    (Mutant::LargestCountRefused, "a count of 4294967295 is refused"),
    (Mutant::FirstTotalMissed, "the first total is missed"),
    (Mutant::LastTotalMissed, "the last total is missed"),
    (Mutant::WidthZeroLetBy, "a width of 0 is taken for 1"),
    (Mutant::Width65LetBy, "a width of 65 is let by"),
    (Mutant::Width64Refused, "a width of 64 is refused"),
    (Mutant::CountBeforeWidth, "26 before 25"),
    (Mutant::RoomBeforeCount, "27 before 26"),
    (Mutant::RoomBeforeWidth, "27 before 25"),
    (Mutant::ShortRunRefused, "a run shorter than the width is refused with 27"),
    (Mutant::ShortRunSkipsCounts, "in a run shorter than the width no count is looked at"),
    (Mutant::OneTotalMoreAsked, "one total more than is written must be lent"),
    (Mutant::RoomForEveryLeg, "a total for every leg must be lent"),
    (Mutant::FewTotalsWritten, "too few lent totals are filled and accepted"),
    (Mutant::PlaceFromOne, "the place is counted from 1"),
    (Mutant::PlaceOfTheLeg, "the place is the leg's, not the total's"),
    (Mutant::LargestCount, "the largest count is told, not the largest total"),
    (Mutant::TotalsOf32Bits, "totals are kept in 32 bits"),
    (Mutant::LargestOf32Bits, "the largest is kept in 32 bits"),
    (Mutant::PlaceOfZerosLast, "where every total is 0, the last place is told"),
    (Mutant::LegsCounted, "the legs are told, not the totals"),
    (Mutant::RefusalWrites, "27 comes after the totals that fit are written"),
    (Mutant::TotalsPastCleared, "totals past those written are cleared"),
    (Mutant::NumbersOfARefusal, "on a refusal the words after the first stay"),
    (Mutant::AnswerPastCleared, "a fifth word of the answer is cleared"),
    (Mutant::ShortAnswerWritten, "a short answer gets the words that it has room for"),
    (Mutant::ShortAnswerAfterTheRest, "a short answer is looked at after the rest"),
    (Mutant::ShortAnswerWritesTotals, "a short answer is refused after the totals are written"),
];

/// What was found: how many totals, the largest, its place.
type Found = (Vec<u64>, u64, usize);

/// "for each leg from the W-th on, the total of the last W, with the largest total and its first place among them, from 0"
fn totals(counts: &[u64], width: usize, mutant: Option<Mutant>) -> Found {
    let wide = match mutant {
        Some(Mutant::WindowTooWide) => width + 1,
        Some(Mutant::WindowTooNarrow) => width - 1,
        _ => width,
    };
    let mut all = Vec::new();
    for leg in 1..=counts.len() {
        if leg < width {
            continue;
        }
        let mut total: u64 = 0;
        for back in 0..wide.min(leg) {
            total += counts[leg - 1 - back];
        }
        all.push(if is(mutant, Mutant::TotalsOf32Bits) { total as u32 as u64 } else { total });
    }
    if is(mutant, Mutant::FirstTotalMissed) && !all.is_empty() {
        all.remove(0);
    }
    if is(mutant, Mutant::LastTotalMissed) {
        all.pop();
    }
    let mut largest = all.iter().copied().max().unwrap_or(0);
    let mut place = all.iter().position(|total| *total == largest).unwrap_or(0);
    if is(mutant, Mutant::LastOfEqual) || (is(mutant, Mutant::PlaceOfZerosLast) && largest == 0) {
        place = all.iter().rposition(|total| *total == largest).unwrap_or(0);
    }
    match mutant {
        Some(Mutant::PlaceFromOne) if !all.is_empty() => place += 1,
        Some(Mutant::PlaceOfTheLeg) if !all.is_empty() => place += width - 1,
        Some(Mutant::LargestCount) => largest = counts.iter().copied().max().unwrap_or(0),
        Some(Mutant::LargestOf32Bits) => largest = largest as u32 as u64,
        _ => {}
    }
    (all, largest, place)
}

/// The refusal, or what was found.
fn outcome(call: &Call, mutant: Option<Mutant>) -> Result<Found, u32> {
    let legs = call.counts.len();
    let least = if is(mutant, Mutant::WidthZeroLetBy) { 0 } else { 1 };
    let most = match mutant {
        Some(Mutant::Width65LetBy) => MOST_WIDTH + 1,
        Some(Mutant::Width64Refused) => MOST_WIDTH - 1,
        _ => MOST_WIDTH,
    };
    let cap = match mutant {
        Some(Mutant::LargeCountLetBy) => MOST_COUNT + 1,
        Some(Mutant::LargestCountRefused) => MOST_COUNT - 1,
        _ => MOST_COUNT,
    };
    let wrong_width = call.width < least || call.width > most;
    let width = call.width.max(1) as usize;
    let short_run = legs < width;
    let large = call.counts.iter().any(|count| *count > cap) && !(is(mutant, Mutant::ShortRunSkipsCounts) && short_run);
    let needed = match mutant {
        Some(Mutant::RoomForEveryLeg) => legs,
        Some(Mutant::OneTotalMoreAsked) if !short_run => legs - width + 2,
        Some(Mutant::ShortRunRefused) if short_run => usize::MAX,
        _ => (legs + 1).saturating_sub(width),
    };
    let few = call.totals < needed && !is(mutant, Mutant::FewTotalsWritten);
    let mut tests = [(wrong_width, 25), (large, 26), (few, 27)];
    match mutant {
        Some(Mutant::CountBeforeWidth) => tests.swap(0, 1),
        Some(Mutant::RoomBeforeCount) => tests.swap(1, 2),
        Some(Mutant::RoomBeforeWidth) => tests.rotate_right(1),
        _ => {}
    }
    match tests.iter().find(|(refused, _)| *refused) {
        Some((_, number)) => Err(*number),
        None => Ok(totals(&call.counts, width, mutant)),
    }
}

/// Every word after a call.
pub fn reckon(call: &Call, mutant: Option<Mutant>) -> After {
    let mut after = After {
        result: SHORT_ANSWER,
        totals: (0..call.totals).map(before).collect(),
        answer: (0..call.answer).map(before).collect(),
    };
    let short = call.answer < ANSWER;
    let late = [Mutant::ShortAnswerWritten, Mutant::ShortAnswerAfterTheRest, Mutant::ShortAnswerWritesTotals];
    if short && !late.iter().any(|m| is(mutant, *m)) {
        return after;
    }
    let outcome = outcome(call, mutant);
    let put = |to: &mut [u64], words: &[u64]| to.iter_mut().zip(words).for_each(|(to, word)| *to = *word);
    if let (Ok((totals, ..)), false) = (&outcome, short && !is(mutant, Mutant::ShortAnswerWritesTotals)) {
        put(&mut after.totals, totals);
        if is(mutant, Mutant::TotalsPastCleared) {
            after.totals.iter_mut().skip(totals.len()).for_each(|word| *word = 0);
        }
    }
    if (is(mutant, Mutant::RefusalWrites), &outcome) == (true, &Err(27)) {
        put(&mut after.totals, &totals(&call.counts, call.width as usize, None).0);
    }
    let (refusal, words) = match outcome {
        Err(refusal) if is(mutant, Mutant::NumbersOfARefusal) => (refusal, vec![refusal as u64]),
        Err(refusal) => (refusal, vec![refusal as u64, 0, 0, 0]),
        Ok((_, largest, place)) if is(mutant, Mutant::LegsCounted) => {
            (0, vec![0, call.counts.len() as u64, largest, place as u64])
        }
        Ok((totals, largest, place)) => (0, vec![0, totals.len() as u64, largest, place as u64]),
    };
    if short {
        after.result = if is(mutant, Mutant::ShortAnswerAfterTheRest) && refusal != 0 { refusal } else { SHORT_ANSWER };
        if is(mutant, Mutant::ShortAnswerWritten) {
            put(&mut after.answer, &words);
        }
        return after;
    }
    after.result = refusal;
    put(&mut after.answer, &words);
    if is(mutant, Mutant::AnswerPastCleared) {
        after.answer.iter_mut().skip(ANSWER).for_each(|word| *word = 0);
    }
    after
}
