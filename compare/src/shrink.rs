//! Makes an input smaller as long as it shows the same thing.

use crate::call::Call;
use crate::rows::{ASSOCIATION, FIELD, ID, INSTANCE, INTERFACE, STATEMENT};

/// A smaller call for which `shows` still holds: rows are taken out while that goes.
pub fn shrink(call: &Call, shows: impl Fn(&Call) -> bool) -> Call {
    let mut best = call.clone();
    loop {
        let before = best.size();
        for library in [true, false] {
            for length in [16, 8, 4, 3, 2, 1] {
                let mut at = 0;
                while at + length <= sheet(&best, library).len() / 8 {
                    let smaller = [false, true].into_iter().find_map(|counted| {
                        let mut next = best.clone();
                        let words = if library { &mut next.library } else { &mut next.root };
                        (take(words, at, length, counted) && shows(&next)).then_some(next)
                    });
                    match smaller {
                        Some(next) => best = next,
                        None => at += 1,
                    }
                }
            }
        }
        if best.size() == before {
            return best;
        }
    }
}

fn sheet(call: &Call, library: bool) -> &Vec<u32> {
    if library {
        &call.library
    } else {
        &call.root
    }
}

/// Takes rows out; where they are counted by a row before them, that count falls too.
fn take(words: &mut Vec<u32>, at: usize, length: usize, counted: bool) -> bool {
    if counted {
        let kind = words[at * 8];
        let holder = (0..at).rev().find(|i| matches!(words[i * 8], FIELD | INTERFACE | INSTANCE));
        let Some(holder) = holder.map(|i| i * 8) else { return false };
        let column = match (words[holder], kind) {
            (INSTANCE, ID) => 2,
            (INSTANCE, STATEMENT) => 3,
            (INSTANCE, ASSOCIATION) => 4,
            (_, ID) => 7,
            _ => return false,
        };
        let Some(left) = words[holder + column].checked_sub(length as u32) else { return false };
        words[holder + column] = left;
    }
    words.drain(at * 8..(at + length) * 8);
    true
}
