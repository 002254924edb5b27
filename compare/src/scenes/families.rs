//! Exhaustive small families: every scene of a few shapes, numbered from 0.

use std::sync::OnceLock;

use super::Scene;
use crate::random::Random;
use crate::rows::{MARK_FIELD, MARK_INTERFACE, MARK_STATEMENT};
use crate::tree::*;

/// A number taken apart into choices; `size` is the product of the choices asked for.
struct Digits {
    rest: u64,
    size: u64,
}

impl Digits {
    fn choose(&mut self, n: usize) -> usize {
        let digit = (self.rest % n as u64) as usize;
        self.rest /= n as u64;
        self.size *= n as u64;
        digit
    }

    fn of<T: Clone>(&mut self, list: &[T]) -> T {
        list[self.choose(list.len())].clone()
    }

    /// A list of at most `most` of these.
    fn list<T: Clone>(&mut self, of: &[T], most: u32) -> Vec<T> {
        let n = of.len();
        let total: usize = (0..=most).map(|k| n.pow(k)).sum();
        let mut digit = self.choose(total);
        let mut length = 0;
        while digit >= n.pow(length) {
            digit -= n.pow(length);
            length += 1;
        }
        (0..length)
            .map(|_| {
                let item = of[digit % n].clone();
                digit /= n;
                item
            })
            .collect()
    }
}

type Family = fn(&mut Digits) -> Scene;

/// The families, each with its name: those of document 01, then those of the wishes.
const FAMILIES: [(&str, Family); 14] = [
    ("loops", loops),
    ("values", values),
    ("marks", marks),
    ("picks", picks),
    ("bases", bases),
    ("refusals", refusals),
    ("nested", nested),
    ("routes", routes),
    ("fetched", fetched),
    ("counters", counters),
    ("corrected", corrected),
    ("linked", linked),
    ("table", table),
    ("equal ids", equal_ids),
];

/// The families of document 01, and all before those of wish 12.
const OF_DOCUMENT_01: usize = 9;
const BEFORE_WISH_12: usize = 11;

/// Name and size of each family.
pub fn sizes() -> &'static [(&'static str, u64)] {
    static SIZES: OnceLock<Vec<(&'static str, u64)>> = OnceLock::new();
    SIZES.get_or_init(|| {
        let size = |family: &Family| {
            let mut digits = Digits { rest: 0, size: 1 };
            family(&mut digits);
            digits.size
        };
        FAMILIES.iter().map(|(name, family)| (*name, size(family))).collect()
    })
}

/// The number of scenes in all families.
pub fn total() -> u64 {
    sizes().iter().map(|(_, size)| size).sum()
}

/// The scene of a number below the sum of the sizes.
pub fn scene(mut number: u64) -> Scene {
    for (at, (_, size)) in sizes().iter().enumerate() {
        if number < *size {
            return FAMILIES[at].1(&mut Digits { rest: number, size: 1 });
        }
        number -= size;
    }
    panic!("no such scene");
}

/// The number of scenes in the families of document 01; those of the wishes' families come behind them.
pub fn of_document_01() -> u64 {
    sizes()[..OF_DOCUMENT_01].iter().map(|(_, size)| size).sum()
}

/// The number of scenes in the families before those of wish 12.
pub fn of_wishes_before_12() -> u64 {
    sizes()[..BEFORE_WISH_12].iter().map(|(_, size)| size).sum()
}

/// Some scene of the families, each of them as likely as any other.
pub fn any(r: &mut Random) -> Scene {
    let at = r.below(FAMILIES.len());
    FAMILIES[at].1(&mut Digits { rest: r.next() % sizes()[at].1, size: 1 })
}

const CHILDREN: u32 = 14;

fn nodes(ids: &[u32]) -> Value {
    Value::Nodes { tag: CHILDREN, ids: ids.to_vec() }
}

fn payload(number: u32) -> Value {
    Value::Payload { tag: 4, number }
}

fn given(name: u32, value: Value) -> Field {
    Field { name, binding: Binding::Value(value), inferred: 0 }
}

fn is(name: u32, target: u32) -> Field {
    Field { name, binding: Binding::Is(target), inferred: 1 }
}

fn declared(name: u32, value: Option<Value>) -> Interface {
    Interface { access: 2, tag: 7, name, is: None, value }
}

fn node(type_name: u32, origin: Origin, fields: Vec<Field>) -> Node {
    Node { fields, ..Node::new(type_name, origin) }
}

fn plain(type_name: u32, fields: Vec<Field>) -> Node {
    node(type_name, Origin::Builtin, fields)
}

fn mention(ids: &[u32]) -> Vec<Statement> {
    ids.iter().map(|id| Statement::Node(*id)).collect()
}

fn route(from: u32, to: u32) -> Statement {
    Statement::Route(Route { names: [1, 2, 3, 4], from: Some(from), to: Some(to) })
}

fn scene_of(nodes: Vec<Node>, protos: Vec<Proto>, top: Vec<Statement>) -> Scene {
    let root = Doc { header: 5, nodes, protos, externs: Vec::new(), top };
    Scene { root, files: Vec::new(), max_nodes: 40, max_depth: 7 }
}

/// Two nodes that may be instances, a body node, one PROTO: sharing and loops, from every start.
fn loops(d: &mut Digits) -> Scene {
    let mut list = Vec::new();
    for i in 0..2 {
        let origin = d.of(&[Origin::Builtin, Origin::Proto(0)]);
        let ids: &[u32] = d.of(&[&[][..], &[0], &[1], &[0, 1], &[1, 0]]);
        list.push(node(50 + i, origin, vec![given(1, nodes(ids))]));
    }
    let origin = d.of(&[Origin::Builtin, Origin::Proto(0)]);
    let field = d.of(&[given(1, nodes(&[])), given(1, nodes(&[0])), given(1, nodes(&[2])), is(1, 1)]);
    list.push(node(52, origin, vec![field]));
    let interfaces = d.of(&[
        vec![],
        vec![declared(1, None)],
        vec![declared(1, Some(nodes(&[])))],
        vec![declared(1, Some(nodes(&[2])))],
        vec![declared(1, Some(nodes(&[0]))), declared(2, Some(nodes(&[0, 1])))],
    ]);
    let body: &[u32] = d.of(&[&[2][..], &[2, 0], &[2, 2], &[0], &[]]);
    let top: &[u32] = d.of(&[&[0][..], &[1], &[0, 1], &[1, 0], &[0, 0]]);
    scene_of(list, vec![Proto { name: 9, interfaces, body: mention(body) }], mention(top))
}

/// One instance, its fields against the interfaces of its PROTO, at the top, in a body and in a default.
fn values(d: &mut Digits) -> Scene {
    let mut may = Vec::new();
    for name in [1, 2] {
        for value in [None, Some(payload(60 + name)), Some(nodes(&[2])), Some(nodes(&[]))] {
            may.push(declared(name, value));
        }
    }
    let interfaces = d.list(&may, 2);
    let mut may = Vec::new();
    for name in [1, 2] {
        may.extend([given(name, payload(70 + name)), given(name, nodes(&[2, 3])), is(name, 1), is(name, 2)]);
    }
    let fields = d.list(&may, 2);
    // 0 the instance, 1 the body's node, 2 and 3 children, 4 an outer instance.
    let mut body = plain(51, vec![is(1, 1), is(3, 2)]);
    body.interfaces = vec![
        Interface { is: Some(1), ..declared(4, Some(payload(80))) },
        Interface { is: Some(2), ..declared(5, None) },
    ];
    body.order = vec![MARK_FIELD, MARK_INTERFACE, MARK_FIELD, MARK_INTERFACE];
    let mut outer = node(54, Origin::Proto(1), vec![given(2, payload(90))]);
    outer.def = Some(3);
    let list = vec![node(50, Origin::Proto(0), fields), body, plain(52, vec![is(6, 1)]), plain(53, vec![]), outer];
    let inner = Proto { name: 8, interfaces, body: mention(&[1]) };
    let (top, outer) = d.of(&[
        (0, Proto { name: 9, interfaces: vec![], body: vec![] }),
        (
            4,
            Proto { name: 9, interfaces: vec![declared(1, Some(nodes(&[3]))), declared(2, None)], body: mention(&[0]) },
        ),
        (4, Proto { name: 9, interfaces: vec![declared(1, None), declared(2, None)], body: mention(&[3, 0]) }),
        (4, Proto { name: 9, interfaces: vec![declared(7, Some(nodes(&[0])))], body: vec![Statement::Node(2)] }),
    ]);
    scene_of(list, vec![inner, outer], mention(&[top]))
}

/// Every list of up to four marks over fields and statements that are kept or dropped.
fn marks(d: &mut Digits) -> Scene {
    let order = d.list(&[MARK_FIELD, MARK_INTERFACE, MARK_STATEMENT], 4);
    let fields = d.list(&[given(1, payload(1)), is(1, 2)], 2);
    let statements = d.list(&[route(0, 1), Statement::Other(3)], 2);
    let mut body = plain(51, fields);
    body.statements = statements;
    body.order = order;
    let list = vec![node(50, Origin::Proto(0), vec![]), body];
    let top: &[u32] = d.of(&[&[0][..], &[1]]);
    scene_of(list, vec![Proto { name: 9, interfaces: vec![], body: mention(&[1]) }], mention(top))
}

/// One extern with up to two urls, up to two files: which PROTO is picked, and where it counts.
fn picks(d: &mut Digits) -> Scene {
    let may = [(1, None), (1, Some(5)), (1, Some(6)), (2, None), (2, Some(5)), (2, Some(6)), (3, None)];
    let urls = d.list(&may, 2);
    let mut may = Vec::new();
    for base in [1, 2] {
        for top in [&[][..], &[0], &[1, 0], &[7], &[7, 0]] {
            let top = top.iter().map(|p| Statement::Proto(*p)).chain([Statement::Node(0)]).collect();
            // The file's own instance of its own extern: of base 1, so that a file may lead back to itself.
            let nodes = vec![node(60, Origin::Extern(0), vec![]), plain(61, vec![given(1, nodes(&[0]))])];
            let externs = vec![Extern { name: 4, interfaces: vec![], urls: vec![(1, None)] }];
            let proto = |name, root| Proto { name, interfaces: vec![declared(1, None)], body: mention(root) };
            let doc = Doc { header: 1, nodes, protos: vec![proto(5, &[1]), proto(6, &[0, 1])], externs, top };
            may.push(File { base, doc });
        }
    }
    let mut files = d.list(&may, 2);
    let top = d.of(&[mention(&[0]), mention(&[1]), vec![Statement::Extern(0), Statement::Node(0)]]);
    // Without externs in the files, so that the original is the reference too.
    if d.of(&[false, true]) {
        for file in &mut files {
            file.doc.externs.clear();
            file.doc.nodes[0].origin = Origin::Unknown;
        }
    }
    let mut list = vec![node(50, Origin::Extern(0), vec![given(1, payload(2))]), node(51, Origin::Proto(0), vec![])];
    list[0].def = Some(3);
    let protos = vec![Proto { name: 9, interfaces: vec![], body: mention(&[0]) }];
    let externs = vec![Extern { name: 3, interfaces: vec![declared(1, None)], urls }];
    let root = Doc { header: 5, nodes: list, protos, externs, top };
    Scene { root, files, max_nodes: 40, max_depth: 7 }
}

/// About 64 distinct bases without a file, and two with one before, among and after them.
fn bases(d: &mut Digits) -> Scene {
    let mut urls = d.of(&[vec![], vec![(1, Some(99))]]);
    let count = 62 + d.choose(4) as u32;
    urls.extend((0..count).map(|i| (100 + i, None)));
    urls.extend(d.of(&[vec![], vec![(1, None)], vec![(2, None)], vec![(1, Some(5))]]));
    let second = d.of(&[vec![(1, None)], vec![(2, None)], vec![(3, None), (1, None)]]);
    let file = |base| {
        let protos = vec![Proto { name: 5, interfaces: vec![], body: mention(&[0]) }];
        let doc = Doc {
            header: 1,
            nodes: vec![plain(60 + base, vec![])],
            protos,
            externs: vec![],
            top: vec![Statement::Proto(0)],
        };
        File { base, doc }
    };
    let list = vec![node(50, Origin::Extern(0), vec![]), node(51, Origin::Extern(1), vec![])];
    let externs = [urls, second].map(|urls| Extern { name: 3, interfaces: vec![], urls }).to_vec();
    let root = Doc { header: 5, nodes: list, protos: vec![], externs, top: mention(&[0, 1]) };
    Scene { root, files: vec![file(1), file(2)], max_nodes: 40, max_depth: 7 }
}

/// Ids that lead nowhere, bodies without a root, and small limits: which refusal comes first.
fn refusals(d: &mut Digits) -> Scene {
    let origin = d.of(&[
        Origin::Builtin,
        Origin::Extern(9),
        Origin::Extern(0),
        Origin::Extern(1),
        Origin::Proto(0),
        Origin::Proto(9),
    ]);
    let ids: &[u32] = d.of(&[&[][..], &[1], &[9], &[1, 1]]);
    let inner = d.of(&[Origin::Builtin, Origin::Extern(9)]);
    let list = vec![node(50, origin, vec![given(1, nodes(ids))]), node(51, inner, vec![])];
    let may = [Statement::Node(1), Statement::Node(9), Statement::Extern(0), Statement::Extern(9), route(1, 0)];
    let body = d.list(&may, 2);
    let top = d.of(&[
        mention(&[0]),
        mention(&[0, 0]),
        mention(&[1, 0]),
        vec![Statement::Node(9)],
        vec![Statement::Extern(9), Statement::Node(0)],
        mention(&[0, 9]),
    ]);
    let protos = vec![Proto { name: 9, interfaces: vec![declared(1, None)], body }];
    let url = |base| Extern { name: 3, interfaces: vec![], urls: vec![(base, None)] };
    let root = Doc { header: 5, nodes: list, protos, externs: vec![url(1), url(2)], top };
    let file = Doc { top: vec![Statement::Proto(4)], ..Doc::default() };
    let files = vec![File { base: 1, doc: file }];
    Scene { root, files, max_nodes: d.choose(3) as u32, max_depth: d.choose(4) as u32 }
}

/// Three PROTOs, each with an instance of the next: nested roots, routes, DEF names and an IS chain.
fn nested(d: &mut Digits) -> Scene {
    let mut protos = Vec::new();
    let mut list = Vec::new();
    // Node 2p is the instance of PROTO p, node 2p + 1 a plain node beside it.
    for p in 0..3u32 {
        let mut instance = node(50 + p, Origin::Proto(p), vec![]);
        instance.def = d.of(&[None, Some(20 + p)]);
        instance.fields = match p {
            0 => vec![given(1, payload(7))],
            _ => vec![is(1, 1)],
        };
        let mut beside = plain(60 + p, vec![is(2, 1)]);
        beside.def = Some(30 + p);
        list.extend([instance, beside]);
        let first = if p < 2 { 2 * p + 2 } else { 2 * p + 1 };
        let may = [Statement::Node(first), Statement::Node(2 * p + 1), route(first, 2 * p + 1)];
        let body = d.list(&may, 2);
        protos.push(Proto { name: 10 + p, interfaces: vec![declared(1, None)], body });
    }
    scene_of(list, protos, mention(&[0]))
}

/// Routes inside nodes, in bodies and at the top, before and after what they name.
fn routes(d: &mut Digits) -> Scene {
    // 0 and 1 at the top, 1 an instance or not; 2 and 3 in the body.
    let origin = d.of(&[Origin::Builtin, Origin::Proto(0)]);
    let ids: &[u32] = d.of(&[&[][..], &[0], &[1]]);
    let mut first = plain(50, vec![given(1, nodes(&[1]))]);
    first.statements = vec![route(0, 1), route(1, 2)];
    let second = node(51, origin, vec![given(1, nodes(ids))]);
    let mut third = plain(52, vec![]);
    third.statements = vec![route(2, 3)];
    let list = vec![first, second, third, plain(53, vec![given(1, nodes(&[2]))])];
    let may = [Statement::Node(2), Statement::Node(3), route(2, 3), route(3, 0)];
    let body = d.list(&may, 3);
    let may = [Statement::Node(0), Statement::Node(1), route(0, 1), route(2, 1)];
    let top = d.list(&may, 3);
    scene_of(list, vec![Proto { name: 9, interfaces: vec![declared(1, None)], body }], top)
}

/// A file's PROTO with ids that lead nowhere, instances and externs of its own, instantiated from the root.
fn fetched(d: &mut Digits) -> Scene {
    let origin = d.of(&[
        Origin::Builtin,
        Origin::Unknown,
        Origin::Extern(0),
        Origin::Extern(9),
        Origin::Proto(0),
        Origin::Proto(1),
        Origin::Proto(9),
    ]);
    let ids: &[u32] = d.of(&[&[][..], &[1], &[9], &[1, 9]]);
    let inner = d.of(&[Origin::Builtin, Origin::Extern(9), Origin::Proto(9)]);
    let default = d.of(&[None, Some(nodes(&[])), Some(nodes(&[1])), Some(nodes(&[9]))]);
    let may = [Statement::Node(0), Statement::Node(9), Statement::Extern(0), Statement::Extern(9), route(0, 1)];
    let body = d.list(&may, 2);
    let second: &[u32] = d.of(&[&[1][..], &[]]);
    let protos = vec![
        Proto { name: 5, interfaces: vec![declared(1, default)], body },
        Proto { name: 6, interfaces: vec![], body: mention(second) },
    ];
    let externs = d.of(&[vec![Extern { name: 4, interfaces: vec![], urls: vec![(1, Some(6))] }], vec![]]);
    let list = vec![node(60, origin, vec![given(1, nodes(ids)), is(2, 1)]), node(61, inner, vec![])];
    let doc = Doc { header: 1, nodes: list, protos, externs, top: vec![Statement::Proto(0)] };
    let fields = d.of(&[vec![], vec![given(1, nodes(&[1]))]]);
    let list = vec![node(50, Origin::Extern(0), fields), plain(51, vec![])];
    let urls = vec![(1, d.of(&[None, Some(5)]))];
    let externs = vec![Extern { name: 3, interfaces: vec![], urls }];
    let root = Doc { header: 5, nodes: list, protos: vec![], externs, top: mention(&[0]) };
    Scene { root, files: vec![File { base: 1, doc }], max_nodes: 40, max_depth: 7 }
}

/// A counter in a prototype in a prototype, each bound by IS to the one around it or to nothing: which defaults are taken, and
/// in which scopes. A default may hold a counter again, so that only a limit ends it.
fn counters(d: &mut Digits) -> Scene {
    // 0 the outer instance, 1 the middle one, 2 the counter, 3 the counter's node, 4 a calf, 5 and 6 a counter in a default.
    let bound = |d: &mut Digits| d.of(&[vec![], vec![is(1, 1)], vec![is(1, 9)], vec![given(1, nodes(&[4])), is(1, 1)]]);
    let outer = d.of(&[vec![], vec![given(1, payload(70))], vec![is(1, 1)]]);
    let list = vec![
        node(50, Origin::Proto(0), outer),
        node(51, Origin::Proto(1), bound(d)),
        node(52, Origin::Proto(2), bound(d)),
        plain(53, vec![is(1, 1), is(2, 2)]),
        plain(54, vec![]),
        node(55, Origin::Proto(2), vec![is(1, 1)]),
        node(56, Origin::Proto(2), vec![given(1, payload(71))]),
    ];
    let event = Interface { access: 0, ..declared(1, None) };
    let outer = d.of(&[event.clone(), declared(1, Some(payload(60)))]);
    let middle = d.of(&[event, declared(1, Some(payload(61))), declared(1, Some(nodes(&[4])))]);
    let counter = d.of(&[
        vec![declared(1, None)],
        vec![declared(1, Some(payload(3)))],
        vec![declared(1, Some(nodes(&[4])))],
        vec![declared(1, Some(nodes(&[6, 4])))],
        vec![declared(1, Some(nodes(&[5])))],
        vec![declared(1, Some(payload(3))), declared(1, Some(nodes(&[4])))],
        vec![declared(1, Some(nodes(&[4]))), declared(1, None), declared(2, Some(payload(4)))],
    ]);
    let body: &[u32] = d.of(&[&[2][..], &[2, 4]]);
    let protos = vec![
        Proto { name: 10, interfaces: vec![outer], body: mention(&[1]) },
        Proto { name: 11, interfaces: vec![middle], body: mention(body) },
        Proto { name: 12, interfaces: counter, body: mention(&[3]) },
    ];
    let top: &[u32] = d.of(&[&[0][..], &[1], &[2, 0]]);
    Scene { max_depth: d.of(&[7, 40]), ..scene_of(list, protos, mention(top)) }
}

/// Up to four files of two bases, the corrected behind the old ones: which of several counts, and where it has no PROTO that
/// the url asks for. Each file's node has a type of its own.
fn corrected(d: &mut Digits) -> Scene {
    let file = |base: u32, names: &[u32], top: &[u32]| {
        let proto = |name: &u32| Proto { name: *name, interfaces: vec![declared(1, None)], body: mention(&[0]) };
        let top = top.iter().map(|p| Statement::Proto(*p)).collect();
        File { base, doc: Doc { header: 1, protos: names.iter().map(proto).collect(), top, ..Doc::default() } }
    };
    let may = [file(1, &[5], &[0]), file(1, &[6, 5], &[0, 1]), file(1, &[5], &[]), file(2, &[5], &[0])];
    let mut files = d.list(&may, 4);
    for (file, type_name) in files.iter_mut().zip(60..) {
        file.doc.nodes = vec![plain(type_name, vec![is(1, 1)])];
    }
    let urls = d.of(&[
        vec![(1, None)],
        vec![(1, Some(5))],
        vec![(1, Some(6)), (2, None)],
        vec![(1, None), (2, None)],
        vec![(3, None), (1, Some(6)), (1, None)],
    ]);
    let second = d.of(&[vec![(2, None)], vec![(1, Some(5)), (2, Some(5))]]);
    let list = vec![node(50, Origin::Extern(0), vec![given(1, payload(2))]), node(51, Origin::Extern(1), vec![])];
    let externs = [urls, second].map(|urls| Extern { name: 3, interfaces: vec![], urls }).to_vec();
    let root = Doc { header: 5, nodes: list, protos: vec![], externs, top: mention(&[0, 1, 0]) };
    Scene { root, files, max_nodes: 40, max_depth: 7 }
}

/// An extern with these urls.
fn extern_of(urls: Vec<(u32, Option<u32>)>) -> Extern {
    Extern { name: 4, interfaces: vec![declared(1, None)], urls }
}

/// A file of one PROTO, 5, that takes a value: its body is a node with these children and what else a body may hold.
fn file_of(base: u32, type_name: u32, children: &[u32], more: Vec<Statement>) -> File {
    let root = plain(type_name, vec![given(2, nodes(children)), is(1, 1)]);
    let body = mention(&[0]).into_iter().chain(more).collect();
    let protos = vec![Proto { name: 5, interfaces: vec![declared(1, Some(payload(type_name)))], body }];
    let top = vec![Statement::Proto(0)];
    File { base, doc: Doc { header: 1, nodes: vec![root], protos, externs: vec![], top } }
}

/// Three files that name one another, themselves or nothing: chains, circles, a file reached twice, a file that is declared
/// twice with one base (wish 12).
fn linked(d: &mut Digits) -> Scene {
    let mut files = Vec::new();
    for n in 1..=3u32 {
        let (next, after) = (n % 3 + 1, (n + 1) % 3 + 1);
        let urls = d.of(&[
            vec![],
            vec![(next, None)],
            vec![(after, Some(5))],
            vec![(n, None)],
            vec![(next, Some(99)), (9, None), (after, None)],
            vec![(next, Some(99))],
        ]);
        // Its extern's node is a child of the body's root; a calf beside it.
        let mut file = file_of(n, 60 + n, &[1, 2], vec![Statement::Extern(0)]);
        let mut link = node(70 + n, Origin::Extern(0), vec![is(1, 1)]);
        link.def = Some(3);
        file.doc.nodes.extend([link, plain(80 + n, vec![])]);
        file.doc.externs = vec![extern_of(urls)];
        files.push(file);
    }
    // Some body's child is plain, so that a circle may end.
    match d.choose(4) {
        0 => {}
        n => files[n - 1].doc.nodes[1].origin = Origin::Unknown,
    }
    // Another file of base 2, whose extern names base 1: the old one in front, or the corrected one behind.
    let mut other = file_of(2, 66, &[1], vec![]);
    other.doc.nodes.push(node(76, Origin::Extern(0), vec![]));
    other.doc.externs = vec![extern_of(vec![(3, None)])];
    match d.choose(3) {
        0 => {}
        1 => files.insert(0, other),
        _ => files.push(other),
    }
    let urls = d.of(&[vec![(1, None)], vec![(9, None), (1, Some(5))], vec![(2, Some(99)), (3, None)]]);
    let second = d.of(&[vec![(2, None)], vec![(1, Some(99))]]);
    let externs = vec![extern_of(urls), extern_of(second)];
    let list = vec![node(50, Origin::Extern(0), vec![given(1, payload(2))]), node(51, Origin::Extern(1), vec![])];
    let root = Doc { header: 5, nodes: list, protos: vec![], externs, top: mention(&[0, 1]) };
    Scene { root, files, max_nodes: 40, max_depth: 9 }
}

/// About 64 distinct bases over the root and its files together: 1 and 2 of the root, 3 of file 1, 4 of file 2, 5 of file 3
/// and 6 of file 4, and so many without a file that some of these come too late, or one of them is just in time.
fn table(d: &mut Digits) -> Scene {
    // The places that are left for 3, 4, 5, 6 and three more without a file: none, too few, just enough, one too many.
    let left = d.choose(9) as u32;
    let unresolved: Vec<(u32, Option<u32>)> = (0..62 - left).map(|i| (100 + i, None)).collect();
    let with_pick = d.of(&[None, Some(99)]);
    let fifth = d.of(&[vec![(200, None), (6, Some(99)), (7, None)], vec![(200, None), (7, None), (6, None)]]);
    let mut files: Vec<File> = Vec::new();
    for n in 1..=6u32 {
        let mut file = file_of(n, 60 + n, &[1], vec![]);
        file.doc.nodes.push(node(70 + n, Origin::Extern(0), vec![]));
        let urls = match n {
            1 => vec![(3, with_pick)],
            2 | 4 => vec![(n + 2, None)],
            // Reached by two externs; the second time it costs no place.
            3 => vec![(5, None), (1, None)],
            5 => fifth.clone(),
            _ => vec![(201, None), (4, Some(99))],
        };
        file.doc.externs = vec![extern_of(urls)];
        files.push(file);
    }
    // Where the others stand: in the root, in file 1 before its own, in file 2, or in the root and file 1, some of them twice.
    let mut first = vec![];
    match d.choose(4) {
        0 => first = unresolved,
        1 => files[0].doc.externs[0].urls.splice(0..0, unresolved).for_each(drop),
        2 => files[1].doc.externs[0].urls.splice(0..0, unresolved).for_each(drop),
        _ => {
            first = unresolved[..30].to_vec();
            files[0].doc.externs[0].urls.splice(0..0, unresolved[20..].iter().copied()).for_each(drop);
        }
    }
    // The library in order, or with the later files first.
    match d.choose(3) {
        0 => {}
        1 => files.reverse(),
        _ => files.rotate_left(3),
    }
    // A file that nothing fetches, with bases of its own.
    if d.of(&[false, true]) {
        let mut idle = file_of(8, 68, &[], vec![]);
        idle.doc.externs = vec![extern_of((300..305).map(|base| (base, None)).collect())];
        files.insert(0, idle);
    }
    first.push((1, None));
    let externs = vec![extern_of(first), extern_of(vec![(2, None)])];
    let list = vec![node(50, Origin::Extern(0), vec![]), node(51, Origin::Extern(1), vec![])];
    let root = Doc { header: 5, nodes: list, protos: vec![], externs, top: mention(&[0, 1]) };
    Scene { root, files, max_nodes: 60, max_depth: 14 }
}

/// Externs 0 and 1 in the root and in two files: each has a pick of its own, and a mark where a statement declares it.
fn equal_ids(d: &mut Digits) -> Scene {
    let to = |other: u32, d: &mut Digits| {
        let first = d.of(&[vec![], vec![(other, None)], vec![(9, None), (other, Some(6)), (other, None)]]);
        let second = d.of(&[vec![], vec![(other, Some(5))], vec![(other, Some(99)), (3, None)]]);
        vec![extern_of(first), extern_of(second)]
    };
    // File 1 takes from file 2; file 2 from file 3, which takes nothing.
    let mut files: Vec<File> = (1..=3).map(|n| file_of(n, 60 + n, &[1], vec![])).collect();
    files[0].doc.externs = to(2, d);
    files[1].doc.externs = to(3, d);
    let origin = d.of(&[Origin::Extern(0), Origin::Extern(1), Origin::Extern(2)]);
    let inner = d.of(&[Origin::Extern(0), Origin::Extern(1)]);
    files[0].doc.nodes.push(node(71, origin, vec![given(1, nodes(&[]))]));
    files[1].doc.nodes.push(node(72, inner, vec![]));
    files[2].doc.nodes.push(plain(73, vec![]));
    let (zero, one) = (Statement::Extern(0), Statement::Extern(1));
    let body = d.of(&[vec![], vec![one.clone()], vec![zero.clone(), one.clone(), zero.clone()]]);
    files[0].doc.protos[0].body.extend(body);
    files[1].doc.nodes[0].statements = d.of(&[vec![], vec![one.clone(), zero.clone()]]);
    files[1].doc.protos[0].body.extend(d.of(&[vec![], vec![zero.clone()]]));
    let externs = d.of(&[
        vec![extern_of(vec![(1, None)]), extern_of(vec![(2, Some(5))])],
        vec![extern_of(vec![(2, None), (1, None)]), extern_of(vec![(9, None), (1, Some(5))])],
        vec![extern_of(vec![(9, None)]), extern_of(vec![(1, Some(99)), (1, None)])],
    ]);
    let list = vec![node(50, Origin::Extern(0), vec![]), node(51, Origin::Extern(1), vec![])];
    let top = vec![Statement::Node(0), one, Statement::Node(1)];
    let root = Doc { header: 5, nodes: list, protos: vec![], externs, top };
    Scene { root, files, max_nodes: 40, max_depth: 9 }
}
