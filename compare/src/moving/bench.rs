//! Time of the moving totals of a long season, beside that of copying its counts.

use std::hint::black_box;

use super::reckon::ANSWER;
use crate::bench::{factor, several, show, Times};
use crate::linked::{self, LINKED};
use crate::memory::now;
use crate::random::Random;

const LEGS: usize = 10_000_000;
const NAME: &str = "10,000,000 legs";
const WIDTHS: [u32; 3] = [1, 7, 64];
/// Goals: times the copy, and times the half.
const MOST_COPIES: f64 = 3.0;
const MOST_GROWTH: f64 = 2.2;

/// The counts of a season: pods of up to 40 animals.
fn season() -> Vec<u64> {
    let r = &mut Random::new(1, 11);
    (0..LEGS).map(|_| r.next() % 41).collect()
}

/// The largest total and its place, by a running sum of its own.
fn peak(counts: &[u64], width: usize) -> (u64, u64) {
    let mut sum: u64 = counts[..width].iter().sum();
    let mut best = (sum, 0);
    for leg in width..counts.len() {
        sum = sum + counts[leg] - counts[leg - width];
        if sum > best.0 {
            best = (sum, (leg + 1 - width) as u64);
        }
    }
    best
}

/// The table, where the name of the season has this part. The number of wrong answers.
pub fn run(part: &str) -> u64 {
    if !LINKED || !NAME.contains(part) {
        return 0;
    }
    let counts = season();
    let mut totals = vec![1; LEGS];
    let mut wrong = 0;
    println!("| season | width | library | copy | library / copy | half the season | full / half |");
    println!("|--|--:|--:|--:|--:|--:|--:|");
    for width in WIDTHS {
        let mut answer = [0; ANSWER];
        let (mut fulls, mut halves, mut copies) = (Times::default(), Times::default(), Times::default());
        // Turn by turn, so that all three see the same weather.
        several(9, 2.0, || {
            let start = now();
            black_box(linked::moving(&counts[..LEGS / 2], width, &mut totals, &mut answer));
            halves.push(now() - start);
            let start = now();
            totals.copy_from_slice(black_box(&counts));
            black_box(&totals);
            copies.push(now() - start);
            let start = now();
            black_box(linked::moving(&counts, width, &mut totals, &mut answer));
            let time = now() - start;
            fulls.push(time);
            time
        });
        let (largest, place) = peak(&counts, width as usize);
        wrong += (answer != [0, (LEGS + 1 - width as usize) as u64, largest, place]) as u64;
        let (copied, growth) = (fulls.median() / copies.median(), fulls.median() / halves.median());
        println!(
            "| {NAME} | {width} | {} | {} | {} | {} | {} |",
            show(fulls.median()),
            show(copies.median()),
            factor(copied, copied <= MOST_COPIES),
            show(halves.median()),
            factor(growth, growth <= MOST_GROWTH)
        );
    }
    println!();
    wrong
}
