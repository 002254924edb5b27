//! The static library under test: every call's words held against the reckoning, and its rows or refusal against the
//! original. Built with the feature `library`.

use std::fmt;

use crate::call::Call;
use crate::coverage::Coverage;
use crate::held::{Slices, ANSWER};
use crate::reckon::{self, Reckoned};
use crate::scenes::{families, large, lent, MOST_CHARGES};
use crate::shrink::shrink;
use crate::versus::{self, By};
use crate::{flights, sweeps};

/// K of the families' calls; their scenes take less.
const FAMILY_ROWS: u32 = 400;
/// Scenes with every K, every N and every D.
const SWEPT: u64 = 300;
/// Threads that call at the same time.
const THREADS: u64 = 4;

/// Counts of some calls.
#[derive(Clone, Copy, Default)]
struct Counts {
    calls: u64,
    refused: [u64; 11],
    original: u64,
    /// A default is taken because of an IS to nothing: not with the original.
    by_is: u64,
    /// Of these, held against the original without the fields so bound.
    absent: u64,
    /// A file of the library declares an extern: not with the original.
    linked: u64,
    /// Of these, held against the original as one document.
    merged: u64,
    differences: u64,
}

impl Counts {
    fn since(&self, before: &Counts) -> Counts {
        let mut counts = *self;
        counts.calls -= before.calls;
        counts.original -= before.original;
        counts.by_is -= before.by_is;
        counts.absent -= before.absent;
        counts.linked -= before.linked;
        counts.merged -= before.merged;
        counts.differences -= before.differences;
        counts.refused.iter_mut().zip(before.refused).for_each(|(now, then)| *now -= then);
        counts
    }

    fn add(&mut self, more: &Counts) {
        self.calls += more.calls;
        self.original += more.original;
        self.by_is += more.by_is;
        self.absent += more.absent;
        self.linked += more.linked;
        self.merged += more.merged;
        self.differences += more.differences;
        self.refused.iter_mut().zip(more.refused).for_each(|(now, then)| *now += then);
    }
}

impl fmt::Display for Counts {
    fn fmt(&self, f: &mut fmt::Formatter<'_>) -> fmt::Result {
        write!(f, "{} calls, {} of them with the original", self.calls, self.original)?;
        write!(f, ", {} with a default because of an IS to nothing", self.by_is)?;
        write!(f, " ({} of them with the original without it)", self.absent)?;
        write!(f, ", {} with externs in the library's files", self.linked)?;
        write!(f, " ({} of them with the original as one document), accepted {}", self.merged, self.refused[0])?;
        let mut before = ", refused";
        for (number, count) in self.refused.iter().enumerate().skip(1).filter(|(_, c)| **c > 0) {
            write!(f, "{before} {number}: {count}")?;
            before = ",";
        }
        write!(f, "; {} differences", self.differences)
    }
}

/// A run over many calls.
#[derive(Default)]
struct Run {
    slices: Slices,
    counts: Counts,
    coverage: Coverage,
    smallest: Option<(Call, String)>,
}

/// How the library parts from the reckoning or from the original on one call, and whether the original was asked. Where a
/// default is taken because of an IS, it is asked without the fields so bound; where a file of the library declares an extern,
/// the scene as one document.
fn differs(slices: &mut Slices, call: &Call, expected: &Reckoned) -> (Option<String>, bool) {
    let words = slices.differs(call, &expected.answer, ANSWER);
    // Where every word is the reckoning's, the original may be held against either.
    let original = versus::held(call, expected);
    let asked = original.is_some();
    (words.or_else(|| original.and_then(|o| o.err()).map(|o| format!("the original: {o}"))), asked)
}

/// The refusal's number, 0 where the call is accepted.
fn number(expected: &Reckoned) -> usize {
    expected.answer.as_ref().map_or_else(|r| r.number as usize, |_| 0)
}

impl Run {
    /// One call with its answer.
    fn note(&mut self, call: &Call, expected: &Reckoned) {
        let (difference, asked) = differs(&mut self.slices, call, expected);
        let asked = asked as u64;
        self.counts.calls += 1;
        match versus::by(expected) {
            By::Nothing => {}
            By::Original => self.counts.original += asked,
            By::Absent => {
                self.counts.by_is += 1;
                self.counts.absent += asked;
            }
            By::OneDocument => {
                self.counts.linked += 1;
                self.counts.merged += asked;
            }
        }
        self.counts.refused[number(expected)] += 1;
        if let Some(what) = difference {
            self.found(call, what);
        }
    }

    fn found(&mut self, call: &Call, what: String) {
        self.counts.differences += 1;
        if self.smallest.as_ref().is_none_or(|(c, _)| call.size() < c.size()) {
            self.smallest = Some((call.clone(), what));
        }
    }

    /// Calls under a name; their counts are printed.
    fn stage(&mut self, name: &str, calls: impl Iterator<Item = Call>, covers: bool) {
        let before = self.counts;
        for call in calls {
            let expected = reckon::reckon(&call, None);
            self.note(&call, &expected);
            if covers {
                self.coverage.note(&call, &expected);
            }
        }
        println!("{name}: {}", self.counts.since(&before));
    }

    /// Answers of other lengths: under seven words refused and nothing written, over it the rest stays.
    fn answers(&mut self, calls: impl Iterator<Item = Call>) {
        let before = self.counts;
        for call in calls {
            let expected = reckon::reckon(&call, None);
            for words in (0..ANSWER).chain([ANSWER + 1, ANSWER + 9]) {
                self.counts.calls += 1;
                self.counts.refused[if words < ANSWER { 1 } else { number(&expected) }] += 1;
                if let Some(what) = self.slices.differs(&call, &expected.answer, words) {
                    self.found(&call, format!("with an answer of {words} words: {what}"));
                }
            }
        }
        println!("answers of 0 to 6, 8 and 16 words: {}", self.counts.since(&before));
    }

    /// Calls in several threads at the same time, each with slices of its own.
    fn threads(&mut self, count: u64, seed: u64) {
        let before = self.counts;
        let runs: Vec<Run> = std::thread::scope(|scope| {
            let thread = |first| {
                move || {
                    let mut run = Run::default();
                    for number in (first..count).step_by(THREADS as usize) {
                        let call = lent::marked(seed, number, lent::USUAL);
                        run.note(&call, &reckon::reckon(&call, None));
                    }
                    run
                }
            };
            let threads: Vec<_> = (0..THREADS).map(|first| scope.spawn(thread(first))).collect();
            threads.into_iter().map(|t| t.join().expect("a thread ended early")).collect()
        });
        for run in runs {
            self.counts.add(&run.counts);
            self.smallest = self.smallest.take().or(run.smallest);
        }
        println!("{THREADS} threads at the same time: {}", self.counts.since(&before));
    }
}

/// A call with N and K just enough, with K one less and with N one less; the call itself where it is refused.
fn tight(call: Call) -> Vec<Call> {
    let Ok(e) = reckon::expand(&call, None) else {
        return vec![Call::new(call.root, call.library, call.max_nodes, call.max_depth, call.max_rows.min(3_000_000))];
    };
    let with = |nodes, rows| Call::new(call.root.clone(), call.library.clone(), nodes, call.max_depth, rows);
    vec![with(e.nodes, e.charges), with(e.nodes, e.charges - 1), with(e.nodes - 1, e.charges)]
}

/// The calls of a seed through the library. The number of differences, and of shapes not met.
pub fn run(count: u64, seed: u64) -> u64 {
    let mut run = Run::default();
    run.stage(
        "flights",
        flights::calls(u32::MAX)
            .into_iter()
            .map(|c| Call::new(c.root, c.library, c.max_nodes, c.max_depth, c.max_rows.min(400))),
        true,
    );
    run.stage("sheets of 1,048,576 rows and one more", lent::caps().into_iter(), false);
    run.stage("families, every scene", (0..families::total()).map(|n| families::scene(n).call(FAMILY_ROWS)), true);
    run.stage(
        "the wishes' families, N and K just enough, one of them one less",
        (families::of_document_01()..families::total()).flat_map(|n| tight(families::scene(n).call(FAMILY_ROWS))),
        true,
    );
    run.stage("random scenes", (0..count).map(|number| lent::marked(seed, number, lent::USUAL)), true);
    run.stage("every K, N and D of 300 scenes", sweeps::calls(SWEPT, seed), false);
    run.stage(
        "large scenes, K just enough, K one less and N one less",
        large::all().into_iter().flat_map(|(_, s)| tight(s.call(MOST_CHARGES))),
        false,
    );
    run.stage("everything at its cap", [large::most(4000).call(MOST_CHARGES)].into_iter(), false);
    run.threads(count.min(20_000), seed + 1);
    run.answers((0..count.min(100)).map(|number| lent::call(seed, number, lent::USUAL)));
    println!("what the accepted and refused scenes contained, calls:");
    let missing = run.coverage.print();
    if let Some((call, _)) = run.smallest.take() {
        let shows = |c: &Call| differs(&mut Slices::default(), c, &reckon::reckon(c, None)).0;
        let call = if call.size() < 5000 { shrink(&call, |c| shows(c).is_some()) } else { call };
        let what = shows(&call).unwrap_or("only after other calls".into());
        let text = if call.size() < 5000 { versus::show(&call) } else { format!("  {} rows", call.size()) };
        println!("smallest difference: {what}\n  lent {:?}\n{text}", call.lent);
    }
    println!("in all: {}", run.counts);
    run.counts.differences + missing
}
