//! Growth: for every scene, time in proportion to (rows + charges) × log (rows + charges), wherever K is at least the rows
//! handed in. Scenes in which the code searches and walks most, crafted ones too, each at sizes that grow by four.
//!
//! Times are of this thread's processor, the best of several runs with slices lent once. A growth is of four times the rows
//! and charges.

pub mod scenes;
pub mod search;
pub mod slots;

use std::hint::black_box;

use crate::bench::{show, thousands};
use crate::call::{head, Call};
use crate::linked::{self, Lent, LINKED};
use crate::memory::now;
use crate::reckon;
use crate::rows::MOST_ROWS;
use crate::versus;
use scenes::Growing;

/// Sizes of a scene, each four times the one before.
const SIZES: usize = 5;
/// The most charges of a scene, for the memory's sake.
const MOST_CHARGES: u32 = 6_000_000;
/// The growth that is wanted, the one that fails the run, and the one after which no larger size is tried.
const WANTED: f64 = 5.0;
const FAILS: f64 = 6.0;
const STOPS: f64 = 8.0;
/// Seconds: shorter times are not looked at, growths to shorter times do not fail the run, a longer one is the last.
const SHORT: f64 = 0.005;
const TELLING: f64 = 0.020;
const LONG: f64 = 2.0;

/// What one size took.
pub struct Taken {
    /// Rows handed in and charges.
    pub rows: usize,
    pub charges: u32,
    pub seconds: f64,
    /// The refusal's number, 0 where the call is accepted.
    pub refusal: u32,
}

impl Taken {
    fn size(&self) -> f64 {
        (self.rows as u32 + self.charges) as f64
    }
}

/// How much longer for four times the scene.
pub fn growth(small: &Taken, large: &Taken) -> f64 {
    large.seconds / small.seconds * 4.0 / (large.size() / small.size())
}

/// Calls of the library with slices lent once, until a condition on the sum of the times and their number holds; the best time.
fn calls(call: &Call, enough: impl Fn(f64, u32) -> bool) -> Taken {
    let mut slices = call.lent.map(|words| vec![0; words as usize]);
    let [out, ledger, scopes, work] = &mut slices;
    let mut answer = [0; 7];
    let mut lent = Lent { out, ledger, scopes, work, answer: &mut answer };
    let (mut best, mut sum, mut runs) = (f64::MAX, 0.0, 0);
    while !enough(sum, runs) {
        let start = now();
        black_box(linked::expand(call, &call.root, &call.library, &mut lent));
        let seconds = (now() - start).as_secs_f64();
        best = best.min(seconds);
        sum += seconds;
        runs += 1;
    }
    let charges = if answer[0] == 10 { call.max_rows } else { answer[5] };
    Taken { rows: call.size(), charges, seconds: best, refusal: answer[0] }
}

/// One call of the library.
pub fn once(call: &Call) -> Taken {
    calls(call, |_, runs| runs > 0)
}

/// The best of several calls of the library.
pub fn time(call: &Call) -> Taken {
    calls(call, |sum, runs| sum > 0.03 && (runs > 4 || sum > 0.6))
}

/// A call timed after a smaller one: where it grew more than is wanted, both again, since the machine has other work.
pub fn time_after(small: Option<(&Call, &mut Taken)>, large: &Call) -> Taken {
    let mut taken = time(large);
    let Some((call, before)) = small else { return taken };
    for _ in 0..5 {
        let grown = growth(before, &taken);
        if taken.seconds < SHORT || grown <= WANTED || grown > 2.0 * STOPS {
            break;
        }
        before.seconds = before.seconds.min(time(call).seconds);
        taken.seconds = taken.seconds.min(time(large).seconds);
    }
    taken
}

/// A scene at its sizes.
struct Measured<'a> {
    scene: &'a Growing,
    numbers: Vec<u32>,
    taken: Vec<Taken>,
}

impl Measured<'_> {
    /// The growths to times long enough to tell.
    fn growths(&self, least: f64) -> impl Iterator<Item = f64> + '_ {
        self.taken.windows(2).filter(move |w| w[1].seconds >= least).map(|w| growth(&w[0], &w[1]))
    }

    fn worst(&self, least: f64) -> Option<f64> {
        self.growths(least).max_by(f64::total_cmp)
    }

    fn fails(&self) -> bool {
        self.worst(TELLING).is_some_and(|g| g > FAILS) || self.taken.iter().any(|t| t.refusal != 0)
    }

    fn print(&self) {
        let last = self.taken.last().unwrap();
        let time = |i: usize| self.taken.get(i).map_or("–".into(), |t| show(t.seconds));
        let times: Vec<String> = (0..SIZES).map(time).collect();
        let worst = self.worst(SHORT);
        let word = match worst {
            _ if last.refusal != 0 => "refused ✗",
            None => "short",
            Some(g) if g <= WANTED => "ok",
            Some(_) if self.fails() => "✗",
            Some(_) => "above",
        };
        println!(
            "| {} | {} | {} | {} | {} | {} | {word} |",
            self.scene.name,
            thousands(*self.numbers.last().unwrap() as u64),
            thousands(last.rows as u64),
            thousands(last.charges as u64),
            times.join(" | "),
            worst.map_or("–".into(), |g| format!("{g:.1}")),
        );
    }
}

fn measure(scene: &Growing) -> Measured<'_> {
    let mut measured = Measured { scene, numbers: Vec::new(), taken: Vec::new() };
    let mut n = scene.first;
    let mut before: Option<Call> = None;
    for _ in 0..SIZES {
        let call = (scene.make)(n);
        if call.root.len() / 8 > MOST_ROWS || call.library.len() / 8 > MOST_ROWS || call.max_rows > MOST_CHARGES {
            break;
        }
        assert!(call.size() as u32 <= call.max_rows, "{}: K is below the rows", scene.name);
        let taken = time_after(before.as_ref().zip(measured.taken.last_mut()), &call);
        let (rows, charges, time) = (taken.rows, taken.charges, show(taken.seconds));
        eprintln!("  {}: n = {n}, {rows} rows, {charges} charges of {}, {time}", scene.name, call.max_rows);
        let grown = measured.taken.last().is_some_and(|t| taken.seconds > TELLING && growth(t, &taken) > STOPS);
        let last = grown || taken.seconds > LONG || taken.refusal != 0;
        measured.numbers.push(n);
        measured.taken.push(taken);
        if last {
            break;
        }
        n *= scene.factor;
        before = Some(call);
    }
    measured
}

/// The answer of a scene at its least size, by the reckoning, the original and the library. What differs.
fn wrong(scene: &Growing) -> Option<String> {
    let call = (scene.make)(scene.first);
    let reckoned = reckon::reckon(&call, None);
    if head(&reckoned.answer)[0] != 0 {
        return Some(format!("refused: {:?}", head(&reckoned.answer)));
    }
    if let Some(Err(original)) = versus::against_original(&call, &reckoned) {
        return Some(format!("the original: {original}"));
    }
    let most = slots::most_in_one(&reckoned.keys, slots::slots(call.max_rows, call.max_depth));
    eprintln!("  {}: {} keys, at most {most} in one slot", scene.name, reckoned.keys.len());
    #[cfg(feature = "library")]
    return crate::held::Slices::default().differs(&call, &reckoned.answer, crate::held::ANSWER);
    #[cfg(not(feature = "library"))]
    None
}

/// One call of the library on the scene of this name over a number, for a counter of instructions.
pub fn at(name: &str, number: u32) -> Result<u64, String> {
    let all = scenes::all();
    let scene = all.iter().flat_map(|(_, list)| list).find(|s| s.name == name).ok_or("no scene of this name")?;
    let taken = once(&(scene.make)(number));
    println!("{} {}", taken.rows, taken.charges);
    Ok(taken.refusal as u64)
}

/// The instructions of one call over a number, by valgrind: other work on the machine and the caches do not count.
fn instructions(name: &str, number: u32) -> Result<Taken, String> {
    let this = std::env::current_exe().map_err(|e| e.to_string())?;
    let output = std::process::Command::new("valgrind")
        .args([
            "--tool=callgrind",
            "--callgrind-out-file=/dev/null",
            "--toggle-collect=luhetami_expand",
            "--main-stacksize=8000000",
        ])
        .args(["--max-stackframe=536870912", "--"])
        .arg(this)
        .args(["growth", "at", name, &number.to_string()])
        .output()
        .map_err(|e| format!("valgrind: {e}"))?;
    let told = String::from_utf8_lossy(&output.stderr).into_owned();
    let counted = told.lines().find_map(|l| l.split("Collected :").nth(1)?.trim().parse::<f64>().ok());
    let text = String::from_utf8_lossy(&output.stdout).into_owned();
    let mut sizes = text.split_whitespace().filter_map(|w| w.parse::<u32>().ok());
    match (counted, sizes.next(), sizes.next()) {
        // Nanoseconds stand for instructions.
        (Some(count), Some(rows), Some(charges)) => {
            Ok(Taken { rows: rows as usize, charges, seconds: count * 1e-9, refusal: 0 })
        }
        _ => Err(format!("{name}: valgrind told nothing: {told}")),
    }
}

/// The table of instructions: each scene whose name has this part at n, 4n and 16n. How many grow too much.
pub fn counted(part: &str) -> Result<u64, String> {
    let mut bad = 0;
    for (about, mut growing) in scenes::all() {
        growing.retain(|s| s.name.contains(part));
        if growing.is_empty() {
            continue;
        }
        println!("\n| {about}, millions of instructions | rows | charges | n | ×4 | ×16 | growth | |");
        println!("|--|--:|--:|--:|--:|--:|--:|--|");
        for scene in &growing {
            let mut taken: Vec<Taken> = Vec::new();
            let mut n = scene.first;
            for _ in 0..3 {
                let call = (scene.make)(n);
                if call.root.len() / 8 > MOST_ROWS || call.library.len() / 8 > MOST_ROWS || call.max_rows > MOST_CHARGES
                {
                    break;
                }
                drop(call);
                taken.push(instructions(scene.name, n)?);
                n *= scene.factor;
                if taken.len() > 1 && growth(&taken[taken.len() - 2], &taken[taken.len() - 1]) > STOPS {
                    break;
                }
            }
            let worst = taken.windows(2).map(|w| growth(&w[0], &w[1])).fold(0.0, f64::max);
            let million = |i: usize| taken.get(i).map_or("–".into(), |t| format!("{:.2}", t.seconds * 1e3));
            let last = taken.last().unwrap();
            let (rows, charges) = (thousands(last.rows as u64), thousands(last.charges as u64));
            let [a, b, c] = [0, 1, 2].map(million);
            let word = if worst <= WANTED { "ok" } else { "✗" };
            println!("| {} | {rows} | {charges} | {a} | {b} | {c} | {worst:.1} | {word} |", scene.name);
            bad += (worst > WANTED) as u64;
        }
    }
    println!("\n{bad} scenes with more than {WANTED} times the instructions for four times the scene");
    Ok(bad)
}

/// The scenes whose name has this part: answers at the least size, then the table of times. How many are wrong or grow too much.
pub fn run(part: &str) -> u64 {
    let mut bad = 0;
    for (about, growing) in scenes::all() {
        let growing: Vec<&Growing> = growing.iter().filter(|s| s.name.contains(part)).collect();
        for scene in &growing {
            if let Some(what) = wrong(scene) {
                println!("{}: {what}", scene.name);
                bad += 1;
            }
        }
        if growing.is_empty() || !LINKED {
            continue;
        }
        println!("\n| {about} | n, largest | rows | charges | first | ×4 | ×16 | ×64 | ×256 | growth | |");
        println!("|--|--:|--:|--:|--:|--:|--:|--:|--:|--:|--|");
        for scene in growing {
            let measured = measure(scene);
            measured.print();
            bad += measured.fails() as u64;
        }
    }
    println!("\n{bad} scenes wrong or with more than {FAILS} times the time for four times the scene");
    bad
}
