//! The calls that are tried: every number of nodes about a page's, and random documents, some damaged or not expanded.

use super::reckon::{ANSWER, LINES, LINE_BYTES};
use super::Call;
use crate::random::Random;
use crate::rows::{words_of, NONE};
use crate::scenes::{damage, expanded, free};
use crate::tree::{print, Doc, Node, Origin};

/// Every number of nodes up to this one.
const MOST_FLAT: usize = 125;
/// Times that each is tried, with other names and ledgers.
const TIMES: u64 = 4;
/// Nodes of a random scene's documents.
const MOST_NODES: usize = 12;

/// The bytes that so many nodes need.
fn needed(nodes: usize) -> usize {
    nodes.div_ceil(LINES - 1) * LINES * LINE_BYTES
}

/// A word of a ledger: mostly small, at times of many digits.
fn word(r: &mut Random) -> u32 {
    match r.below(8) {
        0 => NONE,
        1 => r.next() as u32,
        2 => r.of(&[0, 9, 10, 99, 100, 999_999_999, 1_000_000_000]),
        _ => r.below(70) as u32,
    }
}

fn name(r: &mut Random) -> u32 {
    match r.below(6) {
        0 => NONE - 1,
        1 => r.next() as u32 % NONE,
        _ => r.below(120) as u32,
    }
}

fn ledger(r: &mut Random, nodes: usize) -> Vec<u32> {
    (0..3 * nodes).map(|_| word(r)).collect()
}

/// The same document with one byte too few, just enough and some more.
fn lent(document: Vec<u32>, ledger: Vec<u32>, nodes: usize) -> impl Iterator<Item = Call> {
    let bytes = needed(nodes);
    let work = 2 * document.len();
    [bytes.checked_sub(1), Some(bytes), Some(bytes + 75)].into_iter().flatten().map(move |text| Call {
        document: document.clone(),
        ledger: ledger.clone(),
        text,
        work,
        answer: ANSWER,
    })
}

/// Nodes and nothing else, one to each number.
fn flat() -> impl Iterator<Item = Call> {
    (0..=MOST_FLAT).flat_map(|nodes| {
        (0..TIMES).flat_map(move |time| {
            let r = &mut Random::new(time, nodes as u64);
            let node = |r: &mut Random| {
                let mut node = Node::new(name(r), r.of(&[Origin::Builtin, Origin::Unknown, Origin::Extern(3)]));
                node.def = r.percent(50).then(|| name(r));
                node
            };
            let doc = Doc { header: name(r), nodes: (0..nodes).map(|_| node(r)).collect(), ..Doc::default() };
            lent(words_of(&print(&doc)), ledger(r, nodes), nodes)
        })
    })
}

/// A random call.
fn random(seed: u64, number: u64) -> Call {
    let r = &mut Random::new(seed, number);
    let mut doc = free::scene(r, MOST_NODES).root;
    if !r.percent(8) {
        doc = expanded::expanded(doc);
    }
    if r.percent(3) {
        doc.nodes.clear();
    }
    // Nodes again and again, so that there are several pages.
    let times = r.of(&[1, 1, 1, 1, 1, 2, 5, 9]);
    let nodes = doc.nodes.clone();
    for _ in 1..times {
        doc.nodes.extend(nodes.iter().cloned().map(|mut node| {
            node.type_name = name(r);
            node.def = r.percent(60).then(|| name(r));
            node
        }));
    }
    let count = doc.nodes.len();
    let mut document = words_of(&print(&doc));
    if r.percent(12) {
        damage::damage(r, &mut document);
    }
    if r.percent(10) {
        damage::mark(r, &mut document);
    }
    if r.percent(3) {
        document.extend((0..r.range(1, 7)).map(|_| 0));
    }
    let mut ledger = ledger(r, count);
    match r.below(40) {
        0 => ledger.truncate(ledger.len().saturating_sub(1)),
        1 => ledger.push(1),
        2 => ledger.extend([1, 2, 3]),
        3 => ledger.truncate(ledger.len().saturating_sub(3)),
        4 => ledger.clear(),
        _ => {}
    }
    let bytes = needed(count);
    let text = match r.below(12) {
        0 => bytes.saturating_sub(1),
        1 => 0,
        2 => r.below(bytes + 2),
        3 => bytes + r.below(5000),
        4 => bytes.saturating_sub(LINE_BYTES),
        5 => bytes + 1,
        _ => bytes,
    };
    let least = 2 * document.len() / 16 * 16;
    let work = match r.below(20) {
        0 => least.saturating_sub(1),
        1 => 0,
        2 => least + 3,
        3 => least.saturating_sub(16),
        4 => 16 * count,
        _ => least,
    };
    let answer = if r.percent(6) { r.below(ANSWER + 5) } else { ANSWER };
    Call { document, ledger, text, work, answer }
}

/// The calls of a seed, one after the other.
pub fn calls(count: u64, seed: u64) -> Box<dyn Iterator<Item = Call>> {
    Box::new(flat().chain((0..count).map(move |number| random(seed, number))))
}
