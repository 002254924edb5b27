//! The calls that are tried: every small graph under both protocols, and random documents one after another, some damaged.

use super::reckon::{ANSWER, MOST_NAMES, MOST_PROTOCOLS};
use super::Call;
use crate::random::Random;
use crate::rows::{words_of, NONE};
use crate::scenes::{damage, expanded, free};
use crate::tree::{print, Binding, Doc, Field, Interface, Node, Origin, Record, Statement, Value};

/// Nodes of a random scene's documents.
const MOST_NODES: usize = 10;
/// Type names of random nodes are below this.
const TYPES: usize = 6;

fn value(ids: Vec<u32>) -> Value {
    Value::Nodes { tag: 11, ids }
}

fn field(ids: Vec<u32>) -> Field {
    Field { name: 1, binding: Binding::Value(value(ids)), inferred: 0 }
}

fn interface(ids: Vec<u32>) -> Interface {
    Interface { access: 2, tag: 11, name: 2, is: None, value: Some(value(ids)) }
}

/// A call with what it needs and no more.
fn call(docs: &[Doc], protocols: Vec<u32>, names: Vec<u32>) -> Call {
    let documents: Vec<u32> = docs.iter().flat_map(|doc| words_of(&print(doc))).collect();
    let (totals, work) = (names.len(), 2 * documents.len());
    Call { documents, protocols, names, totals, work, answer: ANSWER }
}

/// Three nodes of two types, each with at most one id in a field or in an interface, and one or two top statements: all of them.
fn small() -> impl Iterator<Item = Call> {
    const CHOICES: u32 = 9;
    (0..CHOICES.pow(3) * 8).flat_map(|number| {
        let ids = |k: u32| match number / CHOICES.pow(k) % CHOICES {
            0 => (Vec::new(), Vec::new()),
            n @ 1..=4 => (vec![n - 1], Vec::new()),
            n => (Vec::new(), vec![n - 5]),
        };
        let nodes = (0..3)
            .map(|k| {
                let (fields, interfaces) = ids(k);
                let mut node = Node::new([5, 7, 5][k as usize], Origin::Builtin);
                node.fields = vec![field(fields)];
                node.interfaces = vec![interface(interfaces)];
                node
            })
            .collect();
        let top = match number / CHOICES.pow(3) {
            0 => vec![],
            n @ 1..=4 => vec![n - 1],
            5 => vec![0, 0],
            6 => vec![0, 1],
            _ => vec![2, 0],
        };
        let doc = Doc { nodes, top: top.into_iter().map(Statement::Node).collect(), ..Doc::default() };
        [1, 2].map(|protocol| call(&[doc.clone()], vec![protocol], vec![5, 7, NONE]))
    })
}

/// A document that most of its ids hold together.
fn linked(r: &mut Random) -> Doc {
    let count = r.range(1, 8) as u32;
    let id = |r: &mut Random| if r.percent(8) { count + r.below(3) as u32 } else { r.below(count as usize) as u32 };
    let ids = |r: &mut Random| -> Vec<u32> { (0..r.below(4)).map(|_| id(r)).collect() };
    let nodes = (0..count)
        .map(|_| {
            let mut node = Node::new(r.below(TYPES) as u32, Origin::Builtin);
            node.def = r.percent(30).then(|| r.below(TYPES) as u32);
            node.fields = (0..r.below(3)).map(|_| field(ids(r))).collect();
            node.interfaces = (0..r.below(3)).map(|_| interface(ids(r))).collect();
            if r.percent(25) {
                let association = [1, id(r), 2];
                node.instance =
                    Some(Record { name: 3, roots: ids(r), routes: Vec::new(), associations: vec![association] });
            }
            node
        })
        .collect();
    let top = (0..r.below(4)).map(|_| Statement::Node(id(r))).collect();
    Doc { header: 5, nodes, top, ..Doc::default() }
}

/// A random call.
fn random(seed: u64, number: u64) -> Call {
    let r = &mut Random::new(seed, number);
    let many = r.of(&[0, 1, 1, 1, 2, 2, 3, 5]);
    let docs: Vec<Doc> = (0..many)
        .map(|_| {
            if r.percent(70) {
                return linked(r);
            }
            let doc = free::scene(r, MOST_NODES).root;
            if r.percent(6) {
                doc
            } else {
                expanded::expanded(doc)
            }
        })
        .collect();
    let mut protocols: Vec<u32> = (0..many).map(|_| r.of(&[1, 2])).collect();
    match r.below(40) {
        0 => protocols.push(1),
        1 => drop(protocols.pop()),
        2 => protocols.extend([r.of(&[0, 3, u32::MAX])]),
        3 => protocols.iter_mut().for_each(|p| *p = 3),
        4 => protocols.iter_mut().take(1).for_each(|p| *p = 0),
        _ => {}
    }
    let mut names: Vec<u32> = (0..TYPES as u32 + 2).filter(|_| r.percent(60)).collect();
    if r.percent(50) {
        names.reverse();
    }
    match r.below(30) {
        0 => names.extend(names.clone()),
        1 => names.push(names.first().copied().unwrap_or(NONE)),
        2 => names.push(NONE),
        3 => names = (0..MOST_NAMES as u32).rev().collect(),
        4 => names = (0..=MOST_NAMES as u32).collect(),
        5 => names.clear(),
        _ => {}
    }
    let mut made = call(&docs, protocols, names);
    if r.percent(8) && !made.documents.is_empty() {
        damage::damage(r, &mut made.documents);
    }
    if r.percent(2) {
        made.documents.extend((0..r.range(1, 7)).map(|_| 0));
    }
    let least = made.documents.len() / 8 * 16;
    made.work = match r.below(24) {
        0 => least.saturating_sub(1),
        1 => 0,
        2 => least + 5,
        3 => least.saturating_sub(16),
        _ => least,
    };
    made.totals = match r.below(16) {
        0 => made.names.len().saturating_sub(1),
        1 => made.names.len() + 1,
        2 => made.names.len() + 9,
        _ => made.names.len(),
    };
    made.answer = if r.percent(6) { r.below(ANSWER + 5) } else { ANSWER };
    made
}

/// At the most protocols, and one past it; two documents under all pairs of protocols; more than 255 mentions.
fn limits() -> impl Iterator<Item = Call> {
    let empty = Doc::default();
    let mut one = Doc { nodes: vec![Node::new(7, Origin::Builtin)], ..Doc::default() };
    one.top = vec![Statement::Node(0); 2];
    let mut often = one.clone();
    often.top = vec![Statement::Node(0); 300];
    let mut calls: Vec<Call> = [MOST_PROTOCOLS, MOST_PROTOCOLS + 1]
        .into_iter()
        .map(|many| call(&vec![empty.clone(); many], vec![2; many], vec![7]))
        .collect();
    for (a, b) in [(1, 1), (1, 2), (2, 1), (2, 2)] {
        calls.push(call(&[one.clone(), often.clone()], vec![a, b], vec![7]));
    }
    calls.push(call(&vec![one; MOST_PROTOCOLS], vec![1; MOST_PROTOCOLS], vec![7]));
    calls.into_iter()
}

/// The calls of a seed, one after the other.
pub fn calls(count: u64, seed: u64) -> Box<dyn Iterator<Item = Call>> {
    Box::new(small().chain(limits()).chain((0..count).map(move |number| random(seed, number))))
}
