//! The check of a sheet by a form's number (`luhetami_check`): a second reckoning, the calls that are tried, and the library under
//! test.

mod bench;
mod calls;
#[cfg(feature = "library")]
mod library;
mod reckon;
#[cfg(feature = "library")]
mod shapes;

pub use bench::run as bench;

use crate::operation::{before, Operation};
use reckon::{reckon, Mutant, MUTANTS};

/// One call: what is handed in, and how long the lent answer is.
#[derive(Clone, Debug)]
pub struct Call {
    pub words: Vec<u32>,
    pub form: u32,
    pub answer: usize,
}

/// The result, and every word of the answer after the call.
#[derive(Clone, Debug, PartialEq, Eq)]
pub struct After {
    pub result: u32,
    pub answer: Vec<u64>,
}

pub struct Checks;

impl Operation for Checks {
    type Call = Call;
    type After = After;
    type Mutant = Mutant;
    const MUTANTS: &'static [(Mutant, &'static str)] = MUTANTS;

    fn calls(count: u64, seed: u64) -> Box<dyn Iterator<Item = Call>> {
        calls::calls(count, seed)
    }

    fn reckon(call: &Call, mutant: Option<Mutant>) -> After {
        reckon(call, mutant)
    }

    fn size(call: &Call) -> usize {
        call.words.len() + call.answer
    }
}
