//! Time of counts, beside that of the check of the same sheet.

use std::hint::black_box;

use super::reckon::ANSWER;
use crate::bench::{factor, several, show, Times};
use crate::linked::{self, LINKED};
use crate::memory::now;

/// Goals: times the check, and times the half.
const MOST_CHECK: f64 = 4.0;
const MOST_GROWTH: f64 = 2.2;
/// The form of documents one after another.
const DOCUMENTS: u32 = 3;

fn row(words: &mut Vec<u32>, row: [u32; 8]) {
    words.extend(row);
}

/// A node with the ids of one field.
fn node(words: &mut Vec<u32>, type_name: u32, ids: &[u32]) {
    row(words, [2, type_name, u32::MAX, 0, 0, 0, 0, 0]);
    row(words, [3, 9, 0, 0, 0, 11, 2, ids.len() as u32]);
    ids.iter().for_each(|id| row(words, [9, *id, 0, 0, 0, 0, 0, 0]));
}

fn document(nodes: impl FnOnce(&mut Vec<u32>), top: impl Iterator<Item = u32>) -> Vec<u32> {
    let mut words = vec![1, 5, 0, 0, 0, 0, 0, 0];
    nodes(&mut words);
    row(&mut words, [11, 0, 0, 0, 0, 0, 0, 0]);
    top.for_each(|id| row(&mut words, [5, 0, id, 0, 0, 0, 0, 0]));
    words
}

/// Each node holds the next, the last the first.
pub fn chain(count: usize) -> Vec<u32> {
    let all = count as u32;
    document(|words| (0..all).for_each(|id| node(words, id % 80, &[(id + 1) % all])), [0].into_iter())
}

/// One node, so often in the value of another.
pub fn often(count: usize) -> Vec<u32> {
    let ids = vec![1; count];
    document(
        |words| {
            node(words, 3, &ids);
            node(words, 63, &[]);
        },
        [0].into_iter(),
    )
}

/// Nodes that the top statements lead to, from the last to the first.
pub fn flat(count: usize) -> Vec<u32> {
    let all = count as u32;
    document(|words| (0..all).for_each(|id| row(words, [2, id % 80, u32::MAX, 0, 0, 0, 0, 0])), (0..all).rev())
}

/// Nodes whose ids lead far away.
fn scattered(count: usize) -> Vec<u32> {
    let all = count as u64;
    let to = |id: u64| ((id * 7919 + 104_729) % all) as u32;
    document(|words| (0..all).for_each(|id| node(words, id as u32 % 80, &[to(id), to(id + 1)])), [0].into_iter())
}

/// 4,096 documents of so many nodes each.
fn many(count: usize) -> Vec<u32> {
    (0..4096).flat_map(|_| chain(count)).collect()
}

type Sheet = (&'static str, fn(usize) -> Vec<u32>, usize);

const SHEETS: [Sheet; 5] = [
    ("count of a chain of 1,000,000 nodes", chain, 1_000_000),
    ("count of one node mentioned 1,000,000 times", often, 1_000_000),
    ("count of 524,286 top nodes, 1,048,574 rows", flat, 524_286),
    ("count of 262,000 nodes with far ids, 1,048,003 rows", scattered, 262_000),
    ("count of 4,096 documents of 84 nodes", many, 84),
];

/// The table, where a name has this part. The number of wrong answers.
pub fn run(part: &str) -> u64 {
    let sheets: Vec<&Sheet> = SHEETS.iter().filter(|sheet| sheet.0.contains(part)).collect();
    if !LINKED || sheets.is_empty() {
        return 0;
    }
    println!("| count, 64 names | protocol | rows | library | check | library / check | full / half |");
    println!("|--|--:|--:|--:|--:|--:|--:|");
    let names: Vec<u32> = (0..64).rev().collect();
    let mut wrong = 0;
    for (name, make, size) in sheets {
        let (full, half) = (make(*size), make(size / 2));
        let mut work = vec![1u32; 2 * full.len()];
        for protocol in [1, 2] {
            let protocols = |sheet: &[u32]| vec![protocol; sheet.chunks(8).filter(|row| row[0] == 1).count()];
            let (of_full, of_half) = (protocols(&full), protocols(&half));
            let (mut fulls, mut halves, mut checks) = (Times::default(), Times::default(), Times::default());
            let (mut totals, mut answer) = ([0u64; 64], [0u64; ANSWER]);
            several(5, 1.0, || {
                let start = now();
                black_box(linked::count(&half, &of_half, &names, &mut totals, &mut work, &mut answer));
                halves.push(now() - start);
                let start = now();
                black_box(linked::check(&full, DOCUMENTS, &mut [0; 2]));
                checks.push(now() - start);
                let start = now();
                black_box(linked::count(&full, &of_full, &names, &mut totals, &mut work, &mut answer));
                let time = now() - start;
                fulls.push(time);
                time
            });
            wrong += (answer != [0, 64]) as u64;
            let (by_check, growth) = (fulls.median() / checks.median(), fulls.median() / halves.median());
            println!(
                "| {name} | {protocol} | {} | {} | {} | {} | {} |",
                full.len() / 8,
                show(fulls.median()),
                show(checks.median()),
                factor(by_check, by_check <= MOST_CHECK),
                factor(growth, growth <= MOST_GROWTH)
            );
        }
    }
    println!();
    wrong
}
