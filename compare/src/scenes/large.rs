//! Large scenes of the shapes that the benchmark names, scaled.

use super::Scene;
use crate::tree::*;

pub fn nodes(ids: Vec<u32>) -> Vec<Field> {
    vec![Field { name: 1, binding: Binding::Value(Value::Nodes { tag: 14, ids }), inferred: 0 }]
}

pub fn node(origin: Origin, fields: Vec<Field>) -> Node {
    Node { fields, ..Node::new(7, origin) }
}

pub fn mention(ids: impl IntoIterator<Item = u32>) -> Vec<Statement> {
    ids.into_iter().map(Statement::Node).collect()
}

pub fn proto(body: Vec<Statement>) -> Proto {
    Proto { name: 9, interfaces: Vec::new(), body }
}

pub fn scene(nodes: Vec<Node>, protos: Vec<Proto>, top: Vec<Statement>) -> Scene {
    let root = Doc { header: 5, nodes, protos, externs: Vec::new(), top };
    Scene { root, files: Vec::new(), max_nodes: 4_000_000, max_depth: 512 }
}

/// Plain nodes side by side.
pub fn flat(count: u32) -> Scene {
    scene((0..count).map(|_| node(Origin::Builtin, nodes(vec![]))).collect(), vec![], mention(0..count))
}

/// Instances of one body of four nodes.
pub fn instances(count: u32) -> Scene {
    let mut list: Vec<Node> = (0..count).map(|_| node(Origin::Proto(0), vec![])).collect();
    let child = |i: u32| node(Origin::Builtin, nodes(if i < 3 { vec![count + i + 1] } else { vec![] }));
    list.extend((0..4).map(child));
    scene(list, vec![proto(mention([count]))], mention(0..count))
}

/// Instances of one body of so many nodes, side by side under its root.
pub fn bodies(count: u32, size: u32) -> Scene {
    let mut list: Vec<Node> = (0..count).map(|_| node(Origin::Proto(0), vec![])).collect();
    list.push(node(Origin::Builtin, nodes((1..size).map(|i| count + i).collect())));
    list.extend((1..size).map(|_| node(Origin::Builtin, vec![])));
    scene(list, vec![proto(mention([count]))], mention(0..count))
}

/// Chains of plain nodes, each of this depth.
pub fn chains(count: u32, depth: u32) -> Scene {
    let mut list = Vec::new();
    for chain in 0..count {
        for i in 0..depth {
            let next = if i + 1 < depth { vec![chain * depth + i + 1] } else { vec![] };
            list.push(node(Origin::Builtin, nodes(next)));
        }
    }
    scene(list, vec![], mention((0..count).map(|c| c * depth)))
}

/// Instances of the first of this many PROTOs; the root of each body has an instance of the next as its child.
pub fn nested(count: u32, depth: u32) -> Scene {
    let mut list: Vec<Node> = Vec::new();
    // Node 2p is the body of PROTO p, node 2p + 1 an instance of PROTO p + 1.
    for p in 0..depth {
        let next = if p + 1 < depth { vec![2 * p + 1] } else { vec![] };
        list.extend([node(Origin::Builtin, nodes(next)), node(Origin::Proto(p + 1), vec![])]);
    }
    let protos = (0..depth).map(|p| proto(mention([2 * p]))).collect();
    let first = list.len() as u32;
    list.extend((0..count).map(|_| node(Origin::Proto(0), vec![])));
    scene(list, protos, mention(first..first + count))
}

/// Instances of the first of this many PROTOs, each with an instance of the next as its root, and so many more roots and
/// as many routes.
pub fn nested_roots(count: u32, depth: u32, more: u32) -> Scene {
    // The first nodes are the further roots of every body, the last of them the innermost root.
    let mut list: Vec<Node> = (0..more + 1).map(|_| node(Origin::Builtin, vec![])).collect();
    let first = list.len() as u32;
    list.extend((0..depth).map(|p| node(Origin::Proto(p), vec![])));
    let route = |i: u32| Statement::Route(Route { names: [1, 2, 3, 4], from: Some(i), to: Some(more) });
    let body = |root: u32| mention([root]).into_iter().chain(mention(0..more)).chain((0..more).map(route)).collect();
    let mut protos: Vec<Proto> = (1..depth).map(|p| proto(body(first + p))).collect();
    protos.push(proto(body(more)));
    let top = list.len() as u32;
    list.extend((0..count).map(|_| node(Origin::Proto(0), vec![])));
    scene(list, protos, mention(top..top + count))
}

/// Each PROTO has two instances of the next.
pub fn doubling(levels: u32) -> Scene {
    let mut list: Vec<Node> = (0..levels).map(|_| node(Origin::Builtin, vec![])).collect();
    let mut protos = Vec::new();
    for p in 0..levels {
        let mut both = Vec::new();
        if p + 1 < levels {
            both = vec![list.len() as u32, list.len() as u32 + 1];
            list.extend([node(Origin::Proto(p + 1), vec![]), node(Origin::Proto(p + 1), vec![])]);
        }
        list[p as usize].fields = nodes(both);
        protos.push(proto(mention([p])));
    }
    list.push(node(Origin::Proto(0), vec![]));
    let top = mention([list.len() as u32 - 1]);
    scene(list, protos, top)
}

/// One instance with as many fields as its PROTO has interfaces.
pub fn wide(count: u32) -> Scene {
    let value = |number| Value::Payload { tag: 4, number };
    let fields = (0..count).map(|i| Field { name: i, binding: Binding::Value(value(i)), inferred: 0 }).collect();
    let taken = (0..count).map(|i| Field { name: i, binding: Binding::Is(count - 1 - i), inferred: 0 }).collect();
    let interfaces =
        (0..count).map(|name| Interface { access: 3, tag: 4, name, is: None, value: Some(value(1)) }).collect();
    let protos = vec![Proto { name: 9, interfaces, body: mention([1]) }];
    scene(vec![node(Origin::Proto(0), fields), node(Origin::Builtin, taken)], protos, mention([0]))
}

/// A Script node: so many fields, interfaces and routes, and a body order.
fn script(fields: u32, interfaces: u32, routes: u32, order: Vec<u32>) -> Node {
    let value = |number| Value::Payload { tag: 4, number };
    let field = |name| Field { name, binding: Binding::Value(value(name)), inferred: 0 };
    let interface = |name| Interface { access: 2, tag: 4, name, is: None, value: Some(value(1)) };
    Node {
        fields: (0..fields).map(field).collect(),
        interfaces: (0..interfaces).map(interface).collect(),
        statements: (0..routes)
            .map(|i| Statement::Route(Route { names: [1, 2, 3, i], from: None, to: None }))
            .collect(),
        order,
        ..Node::new(7, Origin::Builtin)
    }
}

/// Script nodes, each with 20 fields, 20 interfaces, 10 routes and a mark for each of them, mixed.
pub fn scripts(count: u32) -> Scene {
    let order: Vec<u32> = (0..10).flat_map(|_| [0, 1, 2, 1, 0]).collect();
    scene((0..count).map(|_| script(20, 20, 10, order.clone())).collect(), vec![], mention(0..count))
}

/// One node with so many marks of the three kinds in turn, and for each 64 of them a field and a route.
pub fn marks(count: u32) -> Scene {
    let order = (0..count).map(|i| (i * 7 + i / 5) % 3).collect();
    scene(vec![script(count / 64, 0, count / 64, order)], vec![], mention([0]))
}

/// One node whose only field has so many ids, with as many Field marks: all but one are past the last entry.
pub fn past(count: u32) -> Scene {
    let mut list = vec![node(Origin::Builtin, nodes(vec![1; count as usize])), node(Origin::Builtin, vec![])];
    list[0].order = vec![0; count as usize];
    scene(list, vec![], mention([0]))
}

/// Externs that name, by fragment, each its PROTO of one file.
pub fn picked(count: u32) -> Scene {
    let url = |i: u32| vec![(1, Some(count - 1 - i))];
    let externs = (0..count).map(|i| Extern { name: i, interfaces: vec![], urls: url(i) }).collect();
    let list = (0..count).map(|i| node(Origin::Extern(i), vec![])).collect();
    let root = Doc { header: 5, nodes: list, protos: vec![], externs, top: mention(0..count) };
    let protos = (0..count).map(|name| Proto { name, interfaces: vec![], body: mention([0]) }).collect();
    let top = (0..count).map(Statement::Proto).collect();
    let doc = Doc { header: 5, nodes: vec![node(Origin::Builtin, vec![])], protos, externs: vec![], top };
    Scene { root, files: vec![File { base: 1, doc }], max_nodes: 4_000_000, max_depth: 512 }
}

/// Bases of a root's urls, as many as are looked for.
const BASES: u32 = 64;

/// A library of so many small files, and a root with an instance from each of 64 bases.
fn files(count: u32, base: impl Fn(u32) -> u32) -> Scene {
    let file = |i: u32| {
        let doc = Doc {
            header: 5,
            nodes: vec![node(Origin::Builtin, vec![])],
            protos: vec![proto(mention([0]))],
            externs: vec![],
            top: vec![Statement::Proto(0)],
        };
        File { base: base(i), doc }
    };
    let externs = (1..=BASES).map(|b| Extern { name: b, interfaces: vec![], urls: vec![(b, None)] }).collect();
    let list = (0..BASES).map(|i| node(Origin::Extern(i), vec![])).collect();
    let root = Doc { header: 5, nodes: list, protos: vec![], externs, top: mention(0..BASES) };
    Scene { root, files: (0..count).map(file).collect(), max_nodes: 4_000_000, max_depth: 512 }
}

/// 64 bases, each with one file, behind all the other files of the library.
pub fn behind(count: u32) -> Scene {
    files(count, |i| if i < count - BASES { 1000 } else { i - (count - BASES) + 1 })
}

/// 64 bases that share all the files of the library: each has its newest among the last.
pub fn versions(count: u32) -> Scene {
    files(count, |i| i % BASES + 1)
}

/// What the externs of a file name.
#[derive(Clone, Copy)]
pub enum Named {
    /// Nothing: they have no url.
    Nothing,
    /// One file each, all of them in turn.
    Each,
    /// The next file.
    Next,
}

/// 64 files, each with so many externs (document 02, wish 12). The root has an instance from each of them; where each names the
/// next, from the first, and each file an instance from the next.
pub fn sources(externs: u32, named: Named) -> Scene {
    let of = |urls| Extern { name: 9, interfaces: vec![], urls };
    let chain = matches!(named, Named::Next);
    let file = |n: u32| {
        let url = |i: u32| match named {
            Named::Nothing => vec![],
            Named::Each => vec![((n + i) % BASES + 1, None)],
            Named::Next => vec![(n + 1, None)],
        };
        let mut list = vec![node(Origin::Builtin, nodes(if chain { vec![1] } else { vec![] }))];
        if chain {
            list.push(node(Origin::Extern(externs - 1), vec![]));
        }
        let externs = (0..externs).map(|i| of(url(i))).collect();
        let protos = vec![proto(mention([0]))];
        File { base: n, doc: Doc { header: 5, nodes: list, protos, externs, top: vec![Statement::Proto(0)] } }
    };
    let count = if chain { 1 } else { BASES };
    let externs = (1..=count).map(|base| of(vec![(base, None)])).collect();
    let list = (0..count).map(|i| node(Origin::Extern(i), vec![])).collect();
    let root = Doc { header: 5, nodes: list, protos: vec![], externs, top: mention(0..count) };
    Scene { root, files: (1..=BASES).map(file).collect(), max_nodes: 4_000_000, max_depth: 512 }
}

/// The externs of `picked` in a file that the root picks: an instance of each, by fragment, of another file.
pub fn relayed(count: u32) -> Scene {
    let Scene { root: inner, mut files, max_nodes, max_depth } = picked(count);
    let mut list = inner.nodes;
    list.push(node(Origin::Builtin, nodes((0..count).collect())));
    let protos = vec![proto(mention([count]))];
    let doc = Doc { nodes: list, protos, top: vec![Statement::Proto(0)], ..inner };
    files.push(File { base: 2, doc });
    let externs = vec![Extern { name: 3, interfaces: vec![], urls: vec![(2, None)] }];
    let nodes = vec![node(Origin::Extern(0), vec![])];
    let root = Doc { header: 5, nodes, protos: vec![], externs, top: mention([0]) };
    Scene { root, files, max_nodes, max_depth }
}

/// Plain nodes side by side in the root, and in the body of a PROTO of a file that the root picks by its name. Each sheet
/// has this many rows, two or more filled with statements that are carried unread.
pub fn full_sheets(rows: u32) -> Scene {
    let fill = |used: u32| (used..rows).map(Statement::Other);
    let plain = |count: u32| (0..count).map(|_| node(Origin::Builtin, nodes(vec![])));
    // Root: document, nodes of two rows, the instance, the extern and its url, top, statements.
    let count = (rows - 8) / 3;
    let list = plain(count).chain([node(Origin::Extern(0), vec![])]).collect();
    let externs = vec![Extern { name: 3, interfaces: vec![], urls: vec![(1, Some(9))] }];
    let top = mention(0..count + 1).into_iter().chain(fill(3 * count + 6)).collect();
    let root = Doc { header: 5, nodes: list, protos: vec![], externs, top };
    // File: its row, document, nodes of two rows, the PROTO, its body, top, the Proto statement, statements.
    let protos = vec![proto(mention(0..count))];
    let top = [Statement::Proto(0)].into_iter().chain(fill(3 * count + 5)).collect();
    let doc = Doc { header: 5, nodes: plain(count).collect(), protos, externs: vec![], top };
    Scene { root, files: vec![File { base: 1, doc }], max_nodes: 4_000_000, max_depth: 512 }
}

/// Instances of a body of 1,000 nodes. With 4,000 of them everything is at its cap: 4,000,000 nodes, 16,777,216 charges and
/// 1,048,576 rows of the root, the rest of which are statements carried unread and nodes that nothing reaches.
pub fn most(count: u32) -> Scene {
    let (body, share) = (1000, |cap: u32| (cap as u64 * count as u64 / 4000) as u32);
    let value = Field { name: 2, binding: Binding::Value(Value::Payload { tag: 4, number: 1 }), inferred: 0 };
    let mut list: Vec<Node> = (0..count).map(|_| node(Origin::Proto(0), vec![])).collect();
    list.push(node(Origin::Builtin, nodes((1..body).map(|i| count + i).collect())));
    list.extend((1..body).map(|_| node(Origin::Builtin, vec![value.clone()])));
    // An instance and its statement: 4 for each node but the root, 3 for it, 3 of its own and 1.
    let charges = 3 + count * (4 * (body - 1) + 7);
    let others = share(16_777_216) - charges;
    let mut scene = scene(list, vec![proto(mention([count]))], mention(0..count));
    scene.root.top.extend((0..others).map(Statement::Other));
    let rows = 2 + count + 2 + (body - 1) * 3 + 2 + count + others;
    scene.root.nodes.extend((rows..share(1_048_576)).map(|_| node(Origin::Builtin, vec![])));
    scene
}

/// The scenes that `compare large` runs, by name.
pub fn all() -> Vec<(&'static str, Scene)> {
    vec![
        ("20,000 plain nodes flat", flat(20_000)),
        ("5,000 instances of a four-node body", instances(5_000)),
        ("60 instances of a body of 1,000 nodes", bodies(60, 1_000)),
        ("39 chains 512 deep", chains(39, 512)),
        ("a chain 513 deep", chains(1, 513)),
        ("20 instances of 256 nested prototypes", nested(20, 256)),
        ("257 nested prototypes", nested(1, 257)),
        ("20 instances of 255 nested roots", nested_roots(20, 255, 1)),
        ("20 nested roots with 50 more roots and routes", nested_roots(1, 20, 50)),
        ("511 nested roots", nested_roots(1, 511, 1)),
        ("512 nested roots", nested_roots(1, 512, 1)),
        ("doubling 14 levels", doubling(14)),
        ("1,000 interfaces by 1,000 fields", wide(1_000)),
        ("1,000 Script nodes", scripts(1_000)),
        ("100,000 marks of one node", marks(100_000)),
        ("3,000 marks past the last entry", past(3_000)),
        ("1,000 externs by fragment", picked(1_000)),
        ("20,000 rows in each sheet", full_sheets(20_000)),
        ("3,000 files, 64 bases behind them", behind(3_000)),
        ("3,000 files of 64 bases", versions(3_000)),
        ("100 instances of 1,000 nodes", most(100)),
        ("64 files of 300 externs without urls", sources(300, Named::Nothing)),
        ("64 files of 200 externs", sources(200, Named::Each)),
        ("a chain of 64 files of 200 externs", sources(200, Named::Next)),
        ("1,000 externs of a file by fragment", relayed(1_000)),
    ]
}
