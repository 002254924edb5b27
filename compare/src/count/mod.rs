//! Count sheet under both protocols (document 02, wish 5): a second reckoning, the calls that are tried, and the library under test.

mod bench;
mod calls;
#[cfg(feature = "library")]
mod library;
mod reckon;
#[cfg(feature = "library")]
mod shapes;

pub use bench::run as bench;

use crate::operation::{before, Operation};
use reckon::{reckon, Mutant, MUTANTS};

/// One call: what is handed in, and how long the lent slices are.
#[derive(Clone, Debug)]
pub struct Call {
    pub documents: Vec<u32>,
    pub protocols: Vec<u32>,
    pub names: Vec<u32>,
    pub totals: usize,
    pub work: usize,
    pub answer: usize,
}

/// The result, and every word of the lent slices after the call, but for work.
#[derive(Clone, Debug, PartialEq, Eq)]
pub struct After {
    pub result: u32,
    pub totals: Vec<u64>,
    pub answer: Vec<u64>,
}

pub struct Count;

impl Operation for Count {
    type Call = Call;
    type After = After;
    type Mutant = Mutant;
    const MUTANTS: &'static [(Mutant, &'static str)] = MUTANTS;

    fn calls(count: u64, seed: u64) -> Box<dyn Iterator<Item = Call>> {
        calls::calls(count, seed)
    }

    fn reckon(call: &Call, mutant: Option<Mutant>) -> After {
        reckon(call, mutant)
    }

    fn size(call: &Call) -> usize {
        call.documents.len() + call.protocols.len() + call.names.len() + call.totals + call.work / 2 + call.answer
    }
}

fn is(mutant: Option<Mutant>, one: Mutant) -> bool {
    mutant == Some(one)
}
