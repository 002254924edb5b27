//! Damaged sheets: a word changed, a row removed, doubled or swapped with another, the end cut off.

use crate::random::Random;
use crate::rows::{NONE, URL};

/// The sheet with one damage; it may still fit.
pub fn damage(r: &mut Random, words: &mut Vec<u32>) {
    let rows = words.len() / 8;
    let row = |r: &mut Random| r.below(rows) * 8;
    match r.below(8) {
        _ if rows == 0 => words.extend([[12, 1, 0, 0, 0, 0, 0, 0], [0; 8], [11, 0, 0, 0, 0, 0, 0, 0]][r.below(3)]),
        0..=2 => {
            let at = r.below(words.len());
            words[at] = match r.below(8) {
                0 => NONE,
                1 => NONE - 1,
                2 => words[at].wrapping_add(1),
                3 => words[at].wrapping_sub(1),
                4 => r.range(40, 44) as u32,
                _ => r.below(16) as u32,
            };
        }
        3 => {
            let at = row(r);
            words.drain(at..at + 8);
        }
        4 => {
            let at = row(r);
            let copy: Vec<u32> = words[at..at + 8].to_vec();
            words.splice(at..at, copy);
        }
        5 => {
            let (a, b) = (row(r), row(r));
            for i in 0..8 {
                words.swap(a + i, b + i);
            }
        }
        6 => {
            let at = row(r);
            words.truncate(at);
        }
        _ => {
            // The kind of a row.
            let at = row(r);
            words[at] = r.below(16) as u32;
        }
    }
}

/// The sheet with a mark on one of its urls, if it has any: sheets given to Expand keep 0 there (document 02, wish 1).
pub fn mark(r: &mut Random, words: &mut [u32]) {
    let urls: Vec<usize> = (0..words.len() / 8).filter(|at| words[at * 8] == URL).collect();
    if !urls.is_empty() {
        words[r.of(&urls) * 8 + 3] = r.of(&[1, 1, 2]);
    }
}
