//! Times of the original and of the linked library on the same scenes, beside the time of copying the rows in and out once.
//!
//! The original is timed on its own parsed document, without parsing and without dropping what it made. The library is
//! timed with slices lent once and reused, K and N just enough, work full of garbage at first. Pages are counted with
//! slices of fresh memory. All times are of this thread's processor, so that a busy machine disturbs less.

use std::hint::black_box;
use std::time::Duration;

use crate::call::{Call, Expanded};
use crate::frames::{GARBAGE, LEDGER, OUT, SCOPES};
use crate::linked::{self, Lent, LINKED};
use crate::memory::{faults, now, Fresh};
use crate::scenes::{large, Scene, MOST_CHARGES};
use crate::{bench_files, checks, count, moving, pages, reckon, rust};

/// A scene, the same at half its size, and how many times the original's speed is wanted.
struct Bench {
    name: &'static str,
    full: fn() -> Scene,
    half: fn() -> Scene,
    goal: f64,
}

const MOST_NODES: u32 = 4_000_000;
const MOST_DEPTH: u32 = 512;
/// Goals: times the copy, and times the half.
const MOST_COPIES: f64 = 5.0;
const MOST_GROWTH: f64 = 2.2;
const MOST_RUNS: usize = 31;

fn benches() -> Vec<Bench> {
    let b = |name, goal, full, half| Bench { name, full, half, goal };
    vec![
        b("200,000 plain nodes flat", 10.0, || large::flat(200_000), || large::flat(100_000)),
        b("50,000 instances of a four-node body", 10.0, || large::instances(50_000), || large::instances(25_000)),
        b("390 chains 512 deep", 10.0, || large::chains(390, 512), || large::chains(195, 512)),
        b("781 instances of 256 nested prototypes", 10.0, || large::nested(781, 256), || large::nested(391, 256)),
        b("doubling 17 levels", 10.0, || large::doubling(17), || large::doubling(16)),
        b(
            "500 instances of 200 nested roots",
            100.0,
            || large::nested_roots(500, 200, 1),
            || large::nested_roots(250, 200, 1),
        ),
        b(
            "200 nested roots, 500 more roots and routes each",
            100.0,
            || large::nested_roots(1, 200, 500),
            || large::nested_roots(1, 100, 500),
        ),
        b("20,000 interfaces by 20,000 fields", 100.0, || large::wide(20_000), || large::wide(10_000)),
        b("1,048,576 rows in each sheet", 10.0, || large::full_sheets(1_048_576), || large::full_sheets(524_288)),
        b("everything at its cap", 10.0, || large::most(4000), || large::most(2000)),
        b(
            "50 instances of a body of 4,000 nodes (not asked for)",
            10.0,
            || large::bodies(50, 4_000),
            || large::bodies(50, 2_000),
        ),
        b("2,000 externs by fragment (not asked for)", 10.0, || large::picked(2_000), || large::picked(1_000)),
        b(
            "10,000 Script nodes, 50 marks each (not asked for)",
            10.0,
            || large::scripts(10_000),
            || large::scripts(5_000),
        ),
        b("1,000,000 marks of one node (not asked for)", 10.0, || large::marks(1_000_000), || large::marks(500_000)),
        b("40,000 marks past the last entry (not asked for)", 10.0, || large::past(40_000), || large::past(20_000)),
        b(
            "149,000 files, 64 bases behind them (not asked for)",
            10.0,
            || large::behind(149_000),
            || large::behind(74_500),
        ),
        b("149,000 files of 64 bases (not asked for)", 10.0, || large::versions(149_000), || large::versions(74_500)),
    ]
}

/// The slices lent to the library, reused from call to call.
pub struct Slices {
    out: Vec<u32>,
    ledger: Vec<u32>,
    scopes: Vec<u32>,
    work: Vec<u32>,
    answer: [u32; 7],
}

fn filled(length: u64, word: impl Fn(u32) -> u32) -> Vec<u32> {
    (0..length as u32).map(word).collect()
}

impl Slices {
    pub fn new(lent: [u64; 4]) -> Slices {
        Slices {
            out: filled(lent[0], |i| OUT.wrapping_add(i)),
            ledger: filled(lent[1], |i| LEDGER.wrapping_add(i)),
            scopes: filled(lent[2], |i| SCOPES.wrapping_add(i)),
            work: filled(lent[3], |i| i.wrapping_mul(GARBAGE)),
            answer: [0; 7],
        }
    }

    pub fn time(&mut self, call: &Call) -> Duration {
        let Slices { out, ledger, scopes, work, answer } = self;
        let mut lent = Lent { out, ledger, scopes, work, answer };
        let start = now();
        black_box(linked::expand(call, &call.root, &call.library, &mut lent));
        now() - start
    }

    /// The words written are the reckoning's.
    pub fn right(&self, e: &Expanded) -> bool {
        let begins = |slice: &[u32], words: &[u32]| slice.starts_with(words);
        self.answer == [0, 0, 0, e.nodes, e.scopes.len() as u32, e.charges, e.out.len() as u32]
            && begins(&self.out, e.out.as_flattened())
            && begins(&self.ledger, e.ledger.as_flattened())
            && begins(&self.scopes, e.scopes.as_flattened())
    }
}

/// Times of something in seconds, and their median.
#[derive(Default)]
pub struct Times(Vec<f64>);

impl Times {
    pub fn push(&mut self, time: Duration) {
        self.0.push(time.as_secs_f64());
    }

    fn sum(&self) -> f64 {
        self.0.iter().sum()
    }

    pub fn median(&self) -> f64 {
        let mut sorted = self.0.clone();
        sorted.sort_by(f64::total_cmp);
        sorted[sorted.len() / 2]
    }
}

/// Several runs: at least `least`, then up to `MOST_RUNS` while this many seconds are not over. Slow ones are fewer.
pub fn several(least: usize, seconds: f64, mut run: impl FnMut() -> Duration) -> Times {
    let mut times = Times::default();
    loop {
        times.push(run());
        let (count, sum) = (times.0.len(), times.sum());
        if sum > 4.0 * seconds || count == MOST_RUNS || (count >= least && sum > seconds) {
            return times;
        }
    }
}

/// What the library's call took.
struct Library {
    full: f64,
    half: f64,
    at_caps: f64,
    faults: u64,
    faults_at_caps: u64,
    right: bool,
}

/// The measurements of a scene.
struct Measured {
    name: &'static str,
    rows_in: usize,
    rows_out: usize,
    charges: u32,
    nodes: u32,
    goal: f64,
    original: f64,
    original_runs: usize,
    copy: f64,
    library: Option<Library>,
}

/// A call with N and K just enough, and its answer.
pub fn just_enough(scene: &Scene) -> (Call, Expanded) {
    let generous = scene.call(MOST_CHARGES);
    let e = reckon::expand(&generous, None).unwrap_or_else(|r| panic!("a scene of the benchmark is refused: {r:?}"));
    (Call::new(generous.root, generous.library, e.nodes, MOST_DEPTH, e.charges), e)
}

/// Copying the words of both sheets, and those of the output, once.
fn copy(call: &Call, out: &[u32]) -> f64 {
    let from = [&call.root[..], &call.library, out];
    let mut to = from.map(|words| vec![1u32; words.len()]);
    let run = || {
        let start = now();
        for (to, from) in to.iter_mut().zip(from) {
            to.copy_from_slice(black_box(from));
            black_box(&to);
        }
        now() - start
    };
    several(9, 0.5, run).median()
}

/// One call with fresh slices for these limits, then some more with the same ones: faults of the first, time of the rest.
fn fresh(call: &Call, right: &[u32; 7]) -> (u64, f64, bool) {
    let mut slices = call.lent.map(|words| Fresh::new(words as usize));
    let [out, ledger, scopes, work] = &mut slices;
    let mut answer = [0; 7];
    let mut lent = Lent {
        out: out.slice(),
        ledger: ledger.slice(),
        scopes: scopes.slice(),
        work: work.slice(),
        answer: &mut answer,
    };
    let before = faults();
    linked::expand(call, &call.root, &call.library, &mut lent);
    let touched = faults() - before;
    let run = || {
        let start = now();
        black_box(linked::expand(call, &call.root, &call.library, &mut lent));
        now() - start
    };
    let time = several(3, 1.0, run).median();
    (touched, time, answer == *right)
}

fn library(call: &Call, e: &Expanded, half: &Call) -> Library {
    let mut slices = Slices::new(call.lent);
    let mut half_slices = Slices::new(half.lent);
    slices.time(call);
    half_slices.time(half);
    let mut right = slices.right(e);
    let (mut fulls, mut halves) = (Times::default(), Times::default());
    // Turn by turn, so that both see the same weather.
    several(5, 3.0, || {
        let time = slices.time(call);
        fulls.push(time);
        halves.push(half_slices.time(half));
        time
    });
    right &= slices.right(e);
    let answer = slices.answer;
    drop((slices, half_slices));
    let (faults, _, same) = fresh(call, &answer);
    right &= same;
    let caps = Call::needed(MOST_NODES, MOST_DEPTH, MOST_CHARGES);
    let at_caps = Call { max_nodes: MOST_NODES, max_rows: MOST_CHARGES, lent: caps, ..call.clone() };
    let (faults_at_caps, time, same) = fresh(&at_caps, &answer);
    right &= same;
    Library { full: fulls.median(), half: halves.median(), at_caps: time, faults, faults_at_caps, right }
}

fn measure(bench: &Bench) -> Measured {
    eprintln!("{}", bench.name);
    let (call, e) = just_enough(&(bench.full)());
    let copy = copy(&call, e.out.as_flattened());
    eprintln!("  {} rows, {} charges; copied in {}", e.out.len(), e.charges, show(copy));
    let library = LINKED.then(|| {
        let (half, _) = just_enough(&(bench.half)());
        let l = library(&call, &e, &half);
        let word = if l.right { "right" } else { "WRONG" };
        eprintln!("  library {}, half the scene {}, {} pages; {word}", show(l.full), show(l.half), l.faults);
        l
    });
    let (rows_out, charges, nodes) = (e.out.len(), e.charges, e.nodes);
    drop(e);
    let prepared = rust::prepare(&call.root, &call.library, MOST_NODES, MOST_DEPTH);
    let times = several(3, 3.0, || prepared.time());
    eprintln!("  original {}, {} runs", show(times.median()), times.0.len());
    Measured {
        name: bench.name,
        rows_in: call.size(),
        rows_out,
        charges,
        nodes,
        goal: bench.goal,
        original: times.median(),
        original_runs: times.0.len(),
        copy,
        library,
    }
}

/// A time in milliseconds.
pub fn show(seconds: f64) -> String {
    let ms = seconds * 1e3;
    match ms {
        _ if ms < 10.0 => format!("{ms:.2} ms"),
        _ if ms < 100.0 => format!("{ms:.1} ms"),
        _ => format!("{ms:.0} ms"),
    }
}

/// A number with its thousands apart.
pub fn thousands(n: u64) -> String {
    let digits = n.to_string();
    let groups: Vec<&str> = digits.as_bytes().rchunks(3).rev().map(|g| std::str::from_utf8(g).unwrap()).collect();
    groups.join(",")
}

/// A factor, with a mark where it isn't what is wanted.
pub fn factor(value: f64, met: bool) -> String {
    let digits = if value < 10.0 { 2 } else { 0 };
    format!("{value:.digits$}{}", if met { "" } else { " ✗" })
}

fn print(all: &[Measured]) {
    println!("| scene | rows in | rows out | charges | Rust (runs) | library | Rust / library | copy | library / copy | half the scene | full / half |");
    println!("|--|--:|--:|--:|--:|--:|--:|--:|--:|--:|--:|");
    for m in all {
        let sizes = [m.rows_in as u64, m.rows_out as u64, m.charges as u64].map(thousands).join(" | ");
        let rust = format!("{} ({})", show(m.original), m.original_runs);
        let rest = match &m.library {
            None => format!("– | – | {} | – | – | –", show(m.copy)),
            Some(l) => {
                let (speed, copies, growth) = (m.original / l.full, l.full / m.copy, l.full / l.half);
                [
                    show(l.full),
                    factor(speed, speed >= m.goal),
                    show(m.copy),
                    factor(copies, copies <= MOST_COPIES),
                    show(l.half),
                    factor(growth, growth <= MOST_GROWTH),
                ]
                .join(" | ")
            }
        };
        println!("| {} | {sizes} | {rust} | {rest} |", m.name);
    }
    if !LINKED {
        return;
    }
    println!();
    println!("| scene | nodes | pages, K just enough | pages, K at its cap | bytes touched a charge | library, K at its cap |");
    println!("|--|--:|--:|--:|--:|--:|");
    for m in all {
        let Some(l) = &m.library else { continue };
        let bytes = (l.faults * 4096) as f64 / m.charges as f64;
        println!(
            "| {} | {} | {} | {} | {bytes:.0} | {} |",
            m.name,
            thousands(m.nodes as u64),
            thousands(l.faults),
            thousands(l.faults_at_caps),
            show(l.at_caps)
        );
    }
}

/// Goals met and missed, as text.
fn goals(all: &[Measured]) {
    let with: Vec<(&Measured, &Library)> = all.iter().filter_map(|m| m.library.as_ref().map(|l| (m, l))).collect();
    let line = |what: &str, met: &dyn Fn(&Measured, &Library) -> bool| {
        let missed: Vec<&str> = with.iter().filter(|(m, l)| !met(m, l)).map(|(m, _)| m.name).collect();
        let names = if missed.is_empty() { String::new() } else { format!("; missed: {}", missed.join("; ")) };
        println!("- {what}: met on {} of {}{names}", with.len() - missed.len(), with.len());
    };
    println!();
    line("10 times the Rust, 100 times where the Rust is quadratic", &|m, l| m.original / l.full >= m.goal);
    line("within 5 times of copying the rows in and out once", &|m, l| l.full / m.copy <= MOST_COPIES);
    line("twice the scene, at most 2.2 times the time", &|_, l| l.full / l.half <= MOST_GROWTH);
    line("pages the same with K at its cap, within 5 in 100", &|_, l| {
        l.faults_at_caps as f64 <= 1.05 * l.faults as f64 + 64.0
    });
}

/// Calls the library and nothing else for so many seconds on each scene whose name has this part, for a profiler.
pub fn spin(part: &str, seconds: u64) -> u64 {
    for bench in benches().iter().filter(|b| LINKED && b.name.contains(part)) {
        let times = calls(&just_enough(&(bench.full)()).0, |times| times.sum() < seconds as f64);
        eprintln!("{}: {}", bench.name, show(times.median()));
    }
    0
}

/// Scenes of the same shapes that fit the caches.
fn small_scenes() -> [(&'static str, Scene); 8] {
    [
        ("plain nodes flat", large::flat(1_000)),
        ("instances of a four-node body", large::instances(250)),
        ("chains 512 deep", large::chains(2, 512)),
        ("nested prototypes", large::nested(4, 256)),
        ("doubling", large::doubling(10)),
        ("nested roots", large::nested_roots(4, 200, 1)),
        ("Script nodes", large::scripts(20)),
        ("marks of one node", large::marks(1_000)),
    ]
}

/// So many calls of the library on each small scene whose name has this part: time for each node.
pub fn small(part: &str, count: u64) -> u64 {
    for (name, scene) in small_scenes().iter().filter(|s| LINKED && s.0.contains(part)) {
        let (call, e) = just_enough(scene);
        let times = calls(&call, |times| (times.0.len() as u64) < count);
        println!("{name}: {} nodes, {:.0} ns a node", e.nodes, times.median() * 1e9 / e.nodes as f64);
    }
    0
}

/// Calls with slices lent once, while a condition on their times holds.
fn calls(call: &Call, more: impl Fn(&Times) -> bool) -> Times {
    let mut slices = Slices::new(call.lent);
    let mut times = Times::default();
    while more(&times) {
        times.push(slices.time(call));
    }
    times
}

/// The scenes whose name has this part. The number of wrong answers.
pub fn run(part: &str) -> u64 {
    let all: Vec<Measured> = benches().iter().filter(|b| b.name.contains(part)).map(measure).collect();
    if !all.is_empty() {
        print(&all);
        if LINKED {
            goals(&all);
        }
        println!();
    }
    let wrong = all.iter().filter(|m| m.library.as_ref().is_some_and(|l| !l.right)).count() as u64;
    let wrong = wrong + bench_files::run(part);
    let wrong = wrong + moving::bench(part) + pages::bench(part) + checks::bench(part) + count::bench(part);
    println!("{wrong} wrong answers");
    wrong
}
