//! Every limit from 0 to beyond what a scene needs.

use crate::call::{Answer, Call};
use crate::reckon;
use crate::tally::Tally;
use crate::versus::{case, check, show};

/// The scenes that are swept: number, call and answer. Accepted ones of some size, and some of those refused by 4 to 9.
fn scenes(seed: u64) -> impl Iterator<Item = (u64, Call, Answer)> {
    (1 + (1u64 << 40)..).filter_map(move |number| {
        let call = case(seed, number);
        let full = reckon::expand(&call, None);
        let taken = match &full {
            Ok(e) => e.charges > 30 && e.charges < 600,
            Err(r) => (4..=9).contains(&r.number) && number % 16 == 0,
        };
        taken.then_some((number, call, full))
    })
}

/// The least K with which a call has its answer.
fn least_rows(call: &Call, full: &Answer) -> u32 {
    let with = |max_rows| Call { max_rows, ..call.clone() };
    (0..).find(|k| reckon::expand(&with(*k), None) == *full).unwrap()
}

/// The same sweeps as calls with slices of just the needed lengths: every K, every N and every D of `count` scenes.
#[cfg_attr(not(feature = "library"), allow(dead_code))]
pub fn calls(count: u64, seed: u64) -> impl Iterator<Item = Call> {
    scenes(seed).take(count as usize).flat_map(|(_, call, full)| {
        let least = least_rows(&call, &full);
        let nodes = full.as_ref().map_or(call.max_nodes, |e| e.nodes);
        let (n, d) = (call.max_nodes, call.max_depth);
        let every_k = (0..least + 3).map(|k| (n, d, k));
        let every_n = (0..nodes + 2).map(|n| (n, d, least + 2));
        let every_d = (0..d + 2).map(|d| (n, d, least + 2));
        let limits: Vec<_> = every_k.chain(every_n).chain(every_d).collect();
        limits.into_iter().map(move |(n, d, k)| Call::new(call.root.clone(), call.library.clone(), n, d, k))
    })
}

/// For `count` random scenes every K, every N and every D up to beyond what they need. The number of differences.
pub fn run(count: u64, seed: u64) -> u64 {
    let mut tally = Tally::default();
    let mut differences = 0;
    let mut rows_tried = 0u64;
    for (number, call, full) in scenes(seed).take(count as usize) {
        let charges = full.as_ref().ok().map(|e| e.charges);
        let mut report = |what: Result<(), String>, call: &Call| {
            if let Err(what) = what {
                differences += 1;
                println!("case {number} of seed {seed}: {what}\n{}", show(call));
            }
        };
        // Every K: 10 up to one less than what the answer takes, then the answer.
        let with =
            |max_rows| Call::new(call.root.clone(), call.library.clone(), call.max_nodes, call.max_depth, max_rows);
        let mut least = None;
        for max_rows in 0..charges.unwrap_or(3000) + 3 {
            rows_tried += 1;
            let answer = reckon::expand(&with(max_rows), None);
            let same = answer == full;
            if same && least.is_none() {
                least = Some(max_rows);
            }
            let ten = matches!(&answer, Err(r) if r.number == 10 && r.places == [0, 0]);
            if same == ten || (ten && least.is_some()) {
                report(Err(format!("K = {max_rows}")), &call);
            }
            if charges.is_none() && least.is_some_and(|l| max_rows > l + 2) {
                break;
            }
        }
        if least.is_none() || (charges.is_some() && least != charges) {
            report(Err(format!("{charges:?} charges, least K {least:?}")), &call);
        }
        // Every N and every D, against the original.
        let nodes = full.as_ref().map_or(call.max_nodes, |e| e.nodes);
        for max_nodes in 0..nodes + 2 {
            let limited = Call { max_nodes, lent: [u64::MAX; 4], ..call.clone() };
            report(check(&limited, &mut tally), &limited);
        }
        for max_depth in 0..call.max_depth + 2 {
            let limited = Call { max_depth, lent: [u64::MAX; 4], ..call.clone() };
            report(check(&limited, &mut tally), &limited);
        }
    }
    print!("{count} scenes with every N and every D: {tally}");
    println!("the same scenes with every K: {rows_tried} calls");
    println!("{differences} differences");
    differences
}
