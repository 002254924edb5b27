//! Time of the pages of a large document, beside that of writing as many bytes by Write lines.

use std::hint::black_box;

use super::reckon::ANSWER;
use crate::bench::{factor, several, show, Times};
use crate::linked::{self, LINKED};
use crate::memory::now;
use crate::random::Random;

const NODES: usize = 4_000_000;
const NAME: &str = "pages of 4,000,000 nodes";
/// Bytes of a page and of a line of Write lines, and the most rows of one of its calls.
const PAGE: usize = 4380;
const ROW_BYTES: usize = 89;
/// Goals: times Write lines, and times the half.
const MOST_LINES: f64 = 4.0;
const MOST_GROWTH: f64 = 2.2;

/// A document of nodes, each with a field; every other one has a DEF name.
fn document(nodes: usize) -> Vec<u32> {
    let mut words = vec![1, 5, 0, 0, 0, 0, 0, 0];
    for id in 0..nodes as u32 {
        words.extend([2, id % 50, if id % 2 == 0 { id } else { u32::MAX }, 0, 0, 0, 0, 0]);
        words.extend([3, 9, 0, 0, 0, 4, 1, id]);
    }
    words.extend([11, 0, 0, 0, 0, 0, 0, 0]);
    words
}

/// The table, where its name has this part. The number of wrong answers.
pub fn run(part: &str) -> u64 {
    if !LINKED || !NAME.contains(part) {
        return 0;
    }
    let (full, half) = (document(NODES), document(NODES / 2));
    let r = &mut Random::new(1, 13);
    let ledger: Vec<u32> = (0..3 * NODES).map(|_| r.next() as u32 >> r.below(28)).collect();
    let bytes = NODES.div_ceil(59) * PAGE;
    let mut text = vec![1u8; bytes];
    let mut work = vec![1u32; 2 * full.len()];
    // As many bytes by Write lines: rows of the same words.
    let rows = bytes / ROW_BYTES;
    let words: Vec<u32> = (0..8 * rows).map(|at| ledger[at % ledger.len()]).collect();
    let mut answer = [0; ANSWER];
    let (mut fulls, mut halves, mut lines) = (Times::default(), Times::default(), Times::default());
    let mut lined = 0;
    several(5, 2.0, || {
        let start = now();
        black_box(linked::pages(&half, &ledger[..3 * (NODES / 2)], &mut text, &mut work, &mut answer));
        halves.push(now() - start);
        let start = now();
        lined |= black_box(linked::write_lines(&words, &mut text, &mut [0; 3]));
        lines.push(now() - start);
        let start = now();
        black_box(linked::pages(&full, &ledger, &mut text, &mut work, &mut answer));
        let time = now() - start;
        fulls.push(time);
        time
    });
    let wrong = (answer != [0, bytes as u64]) as u64 + (lined != 0) as u64;
    let (by_lines, growth) = (fulls.median() / lines.median(), fulls.median() / halves.median());
    println!("| pages | bytes | library | Write lines | library / Write lines | half the nodes | full / half |");
    println!("|--|--:|--:|--:|--:|--:|--:|");
    println!(
        "| {NAME} | {bytes} | {} | {} | {} | {} | {} |\n",
        show(fulls.median()),
        show(lines.median()),
        factor(by_lines, by_lines <= MOST_LINES),
        show(halves.median()),
        factor(growth, growth <= MOST_GROWTH)
    );
    wrong
}
