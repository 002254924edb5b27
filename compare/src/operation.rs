//! An operation of document 02 under test: its calls, a reckoning and the same broken on purpose, the shapes that must be met, and
//! the library.

#[cfg(feature = "library")]
use std::collections::BTreeMap;
use std::fmt::Debug;

pub trait Operation {
    type Call: Clone + Debug + Send;
    /// The result, and every element of the lent slices after a call, but for work.
    type After: PartialEq;
    type Mutant: Copy + Debug + 'static;
    /// The broken reckonings, each with what is wrong in it.
    const MUTANTS: &'static [(Self::Mutant, &'static str)];

    /// The calls of a seed: the same ones before so many random ones.
    fn calls(count: u64, seed: u64) -> Box<dyn Iterator<Item = Self::Call>>;
    fn reckon(call: &Self::Call, mutant: Option<Self::Mutant>) -> Self::After;
    /// Of two calls that show a difference the smaller is told.
    fn size(call: &Self::Call) -> usize;
}

/// Every word of a lent answer before a call, by its place.
pub fn before(place: usize) -> u64 {
    0x5D5D_0000_0000_0000 + place as u64
}

/// The broken reckonings over the calls of a seed: the number of those that nothing tells from the right one.
pub fn mutants<O: Operation>(count: u64, seed: u64) -> u64 {
    let mut found: Vec<(u64, Option<O::Call>)> = vec![(0, None); O::MUTANTS.len()];
    let mut calls = 0u64;
    for call in O::calls(count, seed) {
        calls += 1;
        let right = O::reckon(&call, None);
        for ((mutant, _), (differences, smallest)) in O::MUTANTS.iter().zip(&mut found) {
            if O::reckon(&call, Some(*mutant)) != right {
                *differences += 1;
                if smallest.as_ref().is_none_or(|s| O::size(&call) < O::size(s)) {
                    *smallest = Some(call.clone());
                }
            }
        }
    }
    let mut unnoticed = 0;
    for ((mutant, what), (differences, smallest)) in O::MUTANTS.iter().zip(found) {
        match smallest {
            Some(call) => println!("{mutant:?}: {what}: {differences} differences, the smallest {call:?}"),
            None => {
                println!("{mutant:?}: {what}: NOT NOTICED");
                unnoticed += 1;
            }
        }
    }
    println!("{} broken reckonings over {calls} calls each, {unnoticed} not noticed", O::MUTANTS.len());
    unnoticed
}

/// An operation with the library's function.
#[cfg(feature = "library")]
pub trait Linked: Operation {
    const NAME: &'static str;

    /// Calls too large for every broken reckoning.
    fn large(seed: u64) -> Box<dyn Iterator<Item = Self::Call>>;
    fn result(after: &Self::After) -> u32;
    /// Each shape that must be met, and whether a call with what is reckoned of it has it; always in the same order.
    fn shapes(call: &Self::Call, after: &Self::After, note: &mut dyn FnMut(&'static str, bool));
    /// One call of the library; what differs from what is reckoned.
    fn differs(call: &Self::Call, expected: &Self::After) -> Option<String>;
}

/// Elements on each side of a slice, which stay.
#[cfg(feature = "library")]
const GUARD: usize = 32;
/// Threads that call at the same time.
#[cfg(feature = "library")]
const THREADS: usize = 4;

/// A slice between its guards.
#[cfg(feature = "library")]
pub struct Guarded<T> {
    all: Vec<T>,
    length: usize,
    guard: T,
}

#[cfg(feature = "library")]
impl<T: Copy + PartialEq + Debug> Guarded<T> {
    pub fn new(length: usize, guard: T, element: impl Fn(usize) -> T) -> Guarded<T> {
        let mut all = vec![guard; length + 2 * GUARD];
        all[GUARD..GUARD + length].iter_mut().enumerate().for_each(|(place, to)| *to = element(place));
        Guarded { all, length, guard }
    }

    pub fn slice(&mut self) -> &mut [T] {
        &mut self.all[GUARD..GUARD + self.length]
    }

    /// Whether something beside the slice was changed, or the first place where the slice is not what it must be.
    pub fn differs(&self, name: &str, right: &[T]) -> Option<String> {
        self.kept_around(name).or_else(|| {
            let slice = &self.all[GUARD..GUARD + self.length];
            let place = slice.iter().zip(right).position(|(is, right)| is != right)?;
            Some(format!("{name}: place {place} is {:?}, not {:?}", slice[place], right[place]))
        })
    }

    /// The same of a slice whose elements are free.
    pub fn kept_around(&self, name: &str) -> Option<String> {
        let (front, rest) = self.all.split_at(GUARD);
        let changed = front.iter().chain(&rest[self.length..]).any(|element| *element != self.guard);
        changed.then(|| format!("{name}: something outside the slice was changed"))
    }
}

#[cfg(feature = "library")]
struct Run<O: Linked> {
    calls: u64,
    results: BTreeMap<u32, u64>,
    differences: u64,
    smallest: Option<(O::Call, String)>,
    shapes: Vec<(&'static str, u64)>,
}

#[cfg(feature = "library")]
impl<O: Linked> Run<O> {
    fn over(calls: impl Iterator<Item = O::Call>) -> Run<O> {
        let mut run = Run { calls: 0, results: BTreeMap::new(), differences: 0, smallest: None, shapes: Vec::new() };
        calls.for_each(|call| run.note(&call));
        run
    }

    fn note(&mut self, call: &O::Call) {
        let expected = O::reckon(call, None);
        self.calls += 1;
        *self.results.entry(O::result(&expected)).or_default() += 1;
        let mut at = 0;
        O::shapes(call, &expected, &mut |name, has| {
            if self.shapes.len() == at {
                self.shapes.push((name, 0));
            }
            self.shapes[at].1 += has as u64;
            at += 1;
        });
        if let Some(what) = O::differs(call, &expected) {
            self.differences += 1;
            if self.smallest.as_ref().is_none_or(|(c, _)| O::size(call) < O::size(c)) {
                self.smallest = Some((call.clone(), what));
            }
        }
    }

    /// The calls of another run, whose shapes do not count.
    fn add(&mut self, more: Run<O>) {
        self.calls += more.calls;
        self.differences += more.differences;
        more.results.into_iter().for_each(|(result, count)| *self.results.entry(result).or_default() += count);
        self.smallest = self.smallest.take().or(more.smallest);
    }
}

/// The calls of a seed through the library. The number of differences, and of shapes not met.
#[cfg(feature = "library")]
pub fn library<O: Linked>(count: u64, seed: u64) -> u64 {
    let mut run = Run::<O>::over(O::calls(count, seed).chain(O::large(seed)));
    let threads: Vec<Run<O>> = std::thread::scope(|scope| {
        let part = |first| move || Run::over(O::calls(count, seed + 1).skip(first).step_by(10 * THREADS));
        let threads: Vec<_> = (0..THREADS).map(|first| scope.spawn(part(first))).collect();
        threads.into_iter().map(|t| t.join().expect("a thread ended early")).collect()
    });
    threads.into_iter().for_each(|more| run.add(more));
    println!("what the calls contained:");
    run.shapes.iter().for_each(|(name, count)| println!("  {name}: {count}"));
    let missing = run.shapes.iter().filter(|(_, count)| *count == 0).count() as u64;
    println!("{} shapes, {missing} not met", run.shapes.len());
    if let Some((call, what)) = &run.smallest {
        println!("smallest difference: {what}\n  {call:?}");
    }
    print!("{}: {} calls, results", O::NAME, run.calls);
    run.results.iter().for_each(|(result, count)| print!(" {result}: {count},"));
    println!(" {} differences", run.differences);
    run.differences + missing
}
