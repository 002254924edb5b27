//! A page for the logbook (document 02, wish 13): a second reckoning, the calls that are tried, and the library under test.

mod bench;
mod calls;
#[cfg(feature = "library")]
mod library;
mod reckon;
#[cfg(feature = "library")]
mod shapes;

pub use bench::run as bench;

use crate::operation::{before, Operation};
use reckon::{reckon, Mutant, MUTANTS};

/// One call: what is handed in, and how long the lent slices are.
#[derive(Clone, Debug)]
pub struct Call {
    pub document: Vec<u32>,
    pub ledger: Vec<u32>,
    pub text: usize,
    pub work: usize,
    pub answer: usize,
}

/// Every byte of the lent text before a call: none that a page has.
pub fn byte_before(place: usize) -> u8 {
    128 + (place % 127) as u8
}

/// The result, and every byte and word of the lent slices after the call, but for work.
#[derive(Clone, Debug, PartialEq, Eq)]
pub struct After {
    pub result: u32,
    pub text: Vec<u8>,
    pub answer: Vec<u64>,
}

pub struct Pages;

impl Operation for Pages {
    type Call = Call;
    type After = After;
    type Mutant = Mutant;
    const MUTANTS: &'static [(Mutant, &'static str)] = MUTANTS;

    fn calls(count: u64, seed: u64) -> Box<dyn Iterator<Item = Call>> {
        calls::calls(count, seed)
    }

    fn reckon(call: &Call, mutant: Option<Mutant>) -> After {
        reckon(call, mutant)
    }

    fn size(call: &Call) -> usize {
        call.document.len() + call.ledger.len()
    }
}

fn is(mutant: Option<Mutant>, one: Mutant) -> bool {
    mutant == Some(one)
}
