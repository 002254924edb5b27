//! Wish 9, "Bigger limits, same flight": calls with the same sheets and different limits, compared two by two, by the words that
//! stand in the slices after each. Who answers is the static library where one is linked, else the reckoning.

use crate::call::{head, Answer, Call};
use crate::reckon;
use crate::scenes::limits::{self, limits, Limits, CAPS};
use crate::shown::{self, Broken};
use crate::versus;

/// The words after a call: its answer, and as much of out, ledger and scopes as it says is written.
pub struct Words {
    pub answer: [u32; 7],
    /// Out, ledger, scopes.
    pub slices: [Vec<u32>; 3],
}

impl Words {
    /// The words of an answer that was reckoned.
    fn of(answer: &Answer) -> Words {
        let slices = match answer {
            Ok(e) => [e.out.concat(), e.ledger.concat(), e.scopes.concat()],
            Err(_) => Default::default(),
        };
        Words { answer: head(answer), slices }
    }

    fn refusal(&self) -> u32 {
        self.answer[0]
    }

    fn accepted(&self) -> bool {
        self.refusal() == 0
    }

    fn nodes(&self) -> u32 {
        self.answer[3]
    }

    fn charges(&self) -> u32 {
        self.answer[5]
    }

    /// The first word in which two calls part.
    fn parts(&self, other: &Words) -> Option<String> {
        let part = |(name, a, b): (&str, &[u32], &[u32])| {
            let at = (0..a.len().max(b.len())).find(|i| a.get(*i) != b.get(*i))?;
            let word = |words: &[u32]| words.get(at).map_or("nothing".into(), u32::to_string);
            Some(format!("{name} word {at}: {}, then {}", word(a), word(b)))
        };
        let slices = ["out", "ledger", "scopes"].into_iter().zip(self.slices.iter().zip(&other.slices));
        let mut all = vec![("answer", &self.answer[..], &other.answer[..])];
        all.extend(slices.map(|(name, (a, b))| (name, &a[..], &b[..])));
        all.into_iter().find_map(part)
    }
}

/// A call and the words after it.
struct Answered {
    call: Call,
    words: Words,
}

/// "each of N, D and K equal or larger"
fn bigger(first: &Call, second: &Call) -> bool {
    limits(first).iter().zip(limits(second)).all(|(a, b)| *a <= b)
}

// ---- The rules

/// A way in which calls part from what is said of them.
#[derive(Clone, Copy, Debug, PartialEq, Eq)]
enum Rule {
    OtherWords,
    RefusedWithMore,
    RefusedJustEnough,
    SheetsAnsweredOtherwise,
    NodesWereEnough,
    DepthWasEnough,
    RowsWereEnough,
    RefusedInRoom,
    /// The words after one call, by themselves.
    OtherAnswer,
}

/// The rules that a broken reckoning must be noticed by, in words.
const RULES: [(Rule, &str); 8] = [
    (Rule::OtherWords, "accepted twice, with other words"),
    (Rule::RefusedWithMore, "accepted, then refused with bigger limits"),
    (Rule::RefusedJustEnough, "accepted, then refused with limits just enough"),
    (Rule::SheetsAnsweredOtherwise, "refused 2 to 7, then answered otherwise with bigger limits"),
    (Rule::NodesWereEnough, "refused 8, then accepted with no more nodes than N was"),
    (Rule::DepthWasEnough, "refused 9, then accepted with no larger D"),
    (Rule::RowsWereEnough, "refused 10, then accepted with no more charges than K was"),
    (Rule::RefusedInRoom, "refused 1 within the caps, with slices long enough"),
];

/// What is said of two calls with the same sheets: the rule that they break, and how.
fn parts(first: &Answered, second: &Answered) -> Option<(Rule, String)> {
    let (a, b) = (&first.words, &second.words);
    let more = bigger(&first.call, &second.call);
    match (a.refusal(), b.refusal()) {
        // Whatever the limits.
        (0, 0) => a.parts(b).map(|what| (Rule::OtherWords, what)),
        (0, number) if more => Some((Rule::RefusedWithMore, format!("refused {number}"))),
        (2..=7, _) if more => a.parts(b).map(|what| (Rule::SheetsAnsweredOtherwise, what)),
        (8, 0) if more && b.nodes() <= first.call.max_nodes => {
            Some((Rule::NodesWereEnough, format!("N was {}, nodes are {}", first.call.max_nodes, b.nodes())))
        }
        (9, 0) if more && second.call.max_depth == first.call.max_depth => {
            Some((Rule::DepthWasEnough, format!("D is {} both times", first.call.max_depth)))
        }
        (10, 0) if more && b.charges() <= first.call.max_rows => {
            Some((Rule::RowsWereEnough, format!("K was {}, charges are {}", first.call.max_rows, b.charges())))
        }
        _ => None,
    }
}

// ---- Who answers

/// Who answers a call: the words after it, or what is wrong with them by themselves.
trait Answers {
    fn words(&mut self, call: &Call) -> Result<Words, String>;
}

/// The reckoning, or a broken one.
struct Reckoning(Option<&'static Broken>);

impl Answers for Reckoning {
    fn words(&mut self, call: &Call) -> Result<Words, String> {
        Ok(Words::of(&self.0.map_or_else(|| reckon::expand(call, None), |broken| (broken.answer)(call))))
    }
}

/// The static library. Each call is held against the reckoning too, with every word that must stay.
#[cfg(feature = "library")]
#[derive(Default)]
struct Library(crate::held::Slices);

#[cfg(feature = "library")]
impl Answers for Library {
    fn words(&mut self, call: &Call) -> Result<Words, String> {
        match self.0.differs(call, &reckon::expand(call, None), crate::held::ANSWER) {
            Some(what) => Err(what),
            None => Ok(self.0.words()),
        }
    }
}

#[cfg(feature = "library")]
fn linked() -> (Box<dyn Answers>, &'static str) {
    (Box::<Library>::default(), "the static library")
}

#[cfg(not(feature = "library"))]
fn linked() -> (Box<dyn Answers>, &'static str) {
    (Box::new(Reckoning(None)), "the reckoning")
}

// ---- What must be met

const SHAPES: [&str; 30] = [
    "accepted, N alone larger",
    "accepted, D alone larger",
    "accepted, K alone larger",
    "accepted, all three larger",
    "accepted, only the slices longer",
    "accepted, N and K just enough, then larger",
    "accepted, neither call's limits as large as the other's",
    "accepted, with a body scope",
    "accepted, with a default scope",
    "accepted, with a scope of a file",
    "refused 8, then accepted",
    "refused 9, then accepted",
    "refused 10, then accepted",
    "refused 8, then by another limit",
    "refused 9, then by another limit",
    "refused 10, then by another limit",
    "refused by a limit, then 4 to 7",
    "refused 2 both times",
    "refused 3 both times",
    "refused 4 both times",
    "refused 5 both times",
    "refused 6 both times",
    "refused 7 both times",
    "refused 8 both times",
    "refused 9 both times",
    "refused 10 both times",
    "N at its cap",
    "D at its cap",
    "K at its cap",
    "every limit at its cap",
];

/// The shapes of two calls, the second with each limit equal or larger or both accepted.
fn shapes(first: &Answered, second: &Answered) -> Vec<String> {
    let (before, after) = (limits(&first.call), limits(&second.call));
    let (a, b) = (&first.words, &second.words);
    let mut names = Vec::new();
    if !bigger(&first.call, &second.call) {
        names.push("accepted, neither call's limits as large as the other's".into());
        return names;
    }
    let larger: Vec<&str> = (0..3).filter(|i| before[*i] < after[*i]).map(|i| ["N", "D", "K"][i]).collect();
    match (a.refusal(), b.refusal()) {
        (0, 0) => names.extend(accepted(first, second, &larger).iter().map(|name| format!("accepted, {name}"))),
        (n, 0) => names.push(format!("refused {n}, then accepted")),
        (n, m) if n == m => names.push(format!("refused {n} both times")),
        (n @ 8..=10, 8..=10) => names.push(format!("refused {n}, then by another limit")),
        (8..=10, 4..=7) => names.push("refused by a limit, then 4 to 7".into()),
        _ => {}
    }
    if !larger.is_empty() {
        let at_cap = |i: &usize| after[*i] == CAPS[*i];
        names.extend((0..3).filter(at_cap).map(|i| format!("{} at its cap", ["N", "D", "K"][i])));
        names.extend((after == CAPS).then(|| "every limit at its cap".into()));
    }
    names
}

/// The shapes of two accepted calls, of which the second has these limits larger.
fn accepted(first: &Answered, second: &Answered, larger: &[&str]) -> Vec<String> {
    let words = &first.words;
    let [nodes, _, rows]: Limits = limits(&first.call);
    let mut names = Vec::new();
    match larger {
        [] if first.call.lent.iter().zip(second.call.lent).all(|(a, b)| *a < b) => {
            names.push("only the slices longer".into());
        }
        [one] => names.push(format!("{one} alone larger")),
        [_, _, _] => names.push("all three larger".into()),
        _ => {}
    }
    if !larger.is_empty() && [nodes, rows] == [words.nodes(), words.charges()] {
        names.push("N and K just enough, then larger".into());
    }
    let scopes = || words.slices[2].chunks(5);
    for (name, met) in [
        ("with a body scope", scopes().any(|s| s[0] == 1)),
        ("with a default scope", scopes().any(|s| s[0] == 2)),
        ("with a scope of a file", scopes().any(|s| s[1] > 0)),
    ] {
        names.extend(met.then(|| name.into()));
    }
    names
}

// ---- The run

/// Counts of a run.
#[derive(Default)]
struct Counts {
    scenes: u64,
    calls: u64,
    /// Pairs of which one call has each limit equal or larger than the other.
    pairs: u64,
    /// Pairs of accepted calls of which neither has.
    others: u64,
    refused: [u64; 11],
    shapes: [u64; SHAPES.len()],
    differences: u64,
    broken: Vec<Rule>,
    first: Option<(String, String)>,
}

impl Counts {
    /// Some calls with the same sheets, one more with limits just enough, and all of them two by two.
    fn note(&mut self, calls: Vec<Call>, answers: &mut dyn Answers) {
        self.scenes += 1;
        let mut list: Vec<Answered> = Vec::new();
        for call in calls {
            self.call(call, answers, &mut list);
        }
        if let Some(Answered { call, words }) = list.iter().find(|a| a.words.accepted()) {
            let enough = limits::with(call, [words.nodes(), call.max_depth, words.charges()]);
            let at = list.len();
            // A broken reckoning may count more than a limit may be.
            if enough.in_room() {
                self.call(enough, answers, &mut list);
            }
            if let Some(Answered { call, words }) = list.get(at).filter(|a| !a.words.accepted()) {
                self.found(Rule::RefusedJustEnough, call, format!("refused {}", words.refusal()));
            }
        }
        for (at, second) in list.iter().enumerate() {
            for first in &list[..at] {
                let (up, down) = (bigger(&first.call, &second.call), bigger(&second.call, &first.call));
                if up {
                    self.pair(first, second);
                }
                if down {
                    self.pair(second, first);
                }
                self.pairs += (up || down) as u64;
                if !up && !down && first.words.accepted() && second.words.accepted() {
                    self.pair(first, second);
                    self.others += 1;
                }
            }
        }
    }

    /// A call, answered and listed where the list has none with the same limits and slices.
    fn call(&mut self, call: Call, answers: &mut dyn Answers, list: &mut Vec<Answered>) {
        assert!(call.in_room(), "within the caps, and the slices long enough");
        if list.iter().any(|a| limits(&a.call) == limits(&call) && a.call.lent == call.lent) {
            return;
        }
        self.calls += 1;
        match answers.words(&call) {
            Ok(words) => {
                self.refused[words.refusal() as usize] += 1;
                if words.refusal() == 1 {
                    self.found(Rule::RefusedInRoom, &call, "refused 1".into());
                }
                list.push(Answered { call, words });
            }
            Err(what) => self.found(Rule::OtherAnswer, &call, what),
        }
    }

    fn pair(&mut self, first: &Answered, second: &Answered) {
        for name in shapes(first, second) {
            if let Some(at) = SHAPES.iter().position(|shape| *shape == name) {
                self.shapes[at] += 1;
            }
        }
        if let Some((rule, what)) = parts(first, second) {
            self.found(rule, &second.call, format!("{what}; first with N, D, K = {:?}", limits(&first.call)));
        }
    }

    fn found(&mut self, rule: Rule, call: &Call, what: String) {
        self.differences += 1;
        if !self.broken.contains(&rule) {
            self.broken.push(rule);
        }
        if self.first.is_none() {
            let shown = format!("  lent {:?}\n{}", call.lent, versus::show(call));
            self.first = Some((format!("{rule:?}: {what}"), shown));
        }
    }
}

/// Pairs of a seed, at least this many. The number of differences, and of shapes not met.
pub fn run(count: u64, seed: u64) -> u64 {
    let (mut answers, name) = linked();
    let mut counts = Counts::default();
    limits::of_large().chain(limits::at_caps()).for_each(|calls| counts.note(calls, &mut *answers));
    let mut numbers = 0..;
    while counts.pairs < count {
        counts.note(limits::calls(seed, numbers.next().unwrap()), &mut *answers);
    }
    print!("{name}: {} scenes, {} calls, accepted {}, refused", counts.scenes, counts.calls, counts.refused[0]);
    for (number, count) in counts.refused.iter().enumerate().skip(1).filter(|(_, c)| **c > 0) {
        print!(" {number}: {count}");
    }
    println!("\n{} pairs, each limit of one equal or larger than the other's", counts.pairs);
    println!("{} more of accepted calls, whatever their limits", counts.others);
    for (name, count) in SHAPES.iter().zip(counts.shapes) {
        println!("  {name}: {count}");
    }
    let missing = counts.shapes.iter().filter(|c| **c == 0).count() as u64;
    println!("{} shapes, {missing} not met", SHAPES.len());
    if let Some((what, call)) = counts.first {
        println!("the first difference: {what}\n{call}");
    }
    println!("{} differences", counts.differences);
    counts.differences + missing
}

/// Every broken reckoning over at least this many pairs of a seed. The number of those that no pair notices, and of rules that
/// notice none.
pub fn mutants(count: u64, seed: u64) -> u64 {
    let mut missed = 0;
    let mut rules: Vec<Rule> = Vec::new();
    for broken in shown::ALL {
        let mut counts = Counts::default();
        let mut numbers = 0..;
        while counts.pairs < count {
            counts.note(limits::calls(seed, numbers.next().unwrap()), &mut Reckoning(Some(broken)));
        }
        let first = counts.first.map_or("NOT NOTICED".into(), |(what, _)| what);
        println!("{}: noticed {} times in {} pairs\n  {first}", broken.what, counts.differences, counts.pairs);
        missed += (counts.differences == 0) as u64;
        rules.extend(counts.broken);
    }
    println!("{} broken reckonings, {missed} not noticed", shown::ALL.len());
    for (rule, what) in RULES {
        let by = rules.iter().filter(|r| **r == rule).count();
        println!("{rule:?}, {what}: notices {by} of them");
        missed += (by == 0) as u64;
    }
    missed
}
