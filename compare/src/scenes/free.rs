//! Random scenes: sharing, loops, nesting, IS chains, picks, repeated names, marks, dangling ids, input instances.

use super::Scene;
use crate::random::Random;
use crate::rows::{MARK_FIELD, MARK_INTERFACE, MARK_STATEMENT, NONE, TAGS};
use crate::tree::*;

/// How a document is made: sizes, and chances in a hundred.
#[derive(Clone, Copy)]
struct Style {
    nodes: usize,
    protos: usize,
    externs: usize,
    names: usize,
    first_name: u32,
    instance: usize,
    fetched: usize,
    backward: usize,
    anywhere: usize,
    dangling: usize,
    recursion: usize,
    is: usize,
    extras: usize,
    /// The bases that urls name, from and to.
    bases: [usize; 2],
}

impl Style {
    fn random(r: &mut Random, most_nodes: usize) -> Style {
        Style {
            nodes: r.range(2, most_nodes),
            protos: r.of(&[0, 1, 1, 2, 2, 3, 3, 4, 6]),
            externs: r.of(&[0, 0, 1, 2, 3]),
            names: r.range(1, 6),
            first_name: r.of(&[0, 1, 1, NONE - 6]),
            instance: r.of(&[10, 40, 60, 60, 90]),
            fetched: r.of(&[0, 10, 30, 60]),
            backward: r.of(&[0, 0, 0, 10, 40, 100]),
            anywhere: r.of(&[0, 0, 5, 30]),
            dangling: r.of(&[0, 0, 0, 0, 1, 3, 12]),
            recursion: r.of(&[0, 0, 0, 3, 20]),
            is: r.of(&[0, 20, 50, 80]),
            extras: r.of(&[0, 10, 30, 60]),
            bases: [1, 3],
        }
    }
}

/// One random scene, with at most about this many nodes to a document.
pub fn scene(r: &mut Random, most_nodes: usize) -> Scene {
    let style = Style::random(r, most_nodes);
    let root = document(r, style);
    let kind = r.of(&[Files::Plain, Files::Plain, Files::Any, Files::Onward, Files::Onward]);
    let count = match kind {
        _ if root.externs.is_empty() && !r.percent(5) => 0,
        Files::Onward => r.range(1, 5),
        _ => r.of(&[0, 1, 1, 2, 3]),
    };
    let mut files = Vec::new();
    for n in 1..=count {
        let mut inner = Style::random(r, most_nodes);
        // One naming for all documents, so that fragments find names.
        inner.first_name = style.first_name;
        inner.protos = inner.protos.max(r.below(2));
        let base = match kind {
            Files::Plain => {
                inner.externs = 0;
                base(r)
            }
            Files::Any => base(r),
            Files::Onward => {
                inner.externs = inner.externs.max(1);
                inner.fetched = r.of(&[20, 50, 90]);
                inner.protos = inner.protos.max(1);
                // Some lead back.
                let back = r.percent(10);
                inner.bases = [if back { 1 } else { n + 1 }, count.max(n + 1)];
                n as u32
            }
        };
        files.push(File { base, doc: document(r, inner) });
    }
    if count > 1 && r.percent(10) {
        let at = r.below(count);
        files.swap(0, at);
    }
    let mut scene = Scene { root, files, max_nodes: 0, max_depth: 0 };
    limits(r, &mut scene);
    if r.below(400) == 0 {
        many_bases(r, &mut scene);
    }
    scene
}

/// What the files of a scene name.
#[derive(Clone, Copy)]
enum Files {
    /// Nothing: no file declares an extern.
    Plain,
    /// Any of three bases.
    Any,
    /// Mostly the files behind them, so that chains end.
    Onward,
}

/// Limits that mostly let the scene by.
fn limits(r: &mut Random, scene: &mut Scene) {
    let bites = r.percent(20);
    scene.max_nodes = if bites { r.below(14) } else { r.range(60, 250) } as u32;
    scene.max_depth = if bites || r.percent(5) { r.below(9) } else { r.range(9, 24) } as u32;
}

/// Urls with about 64 distinct bases before the others, in the root or divided between the root and a file.
fn many_bases(r: &mut Random, scene: &mut Scene) {
    let count = r.range(56, 66) as u32;
    let mut many: Vec<(u32, Option<u32>)> = (0..count).map(|i| (100 + i, None)).collect();
    if !scene.files.is_empty() && r.percent(60) {
        let file = r.below(scene.files.len());
        if let Some(first) = scene.files[file].doc.externs.first_mut() {
            let own = many.split_off(r.below(count as usize));
            first.urls.splice(0..0, own);
        }
    }
    if let Some(first) = scene.root.externs.first_mut() {
        first.urls.splice(0..0, many);
    }
}

fn base(r: &mut Random) -> u32 {
    r.range(1, 3) as u32
}

/// A document in the making: each node belongs to the top (0) or to a PROTO (its id + 1).
struct Maker<'r> {
    r: &'r mut Random,
    style: Style,
    owner: Vec<usize>,
    protos: Vec<Proto>,
}

fn document(r: &mut Random, style: Style) -> Doc {
    let mut owner = vec![0];
    for _ in 1..style.nodes {
        owner.push(if r.percent(30) { 0 } else { r.below(style.protos + 1) });
    }
    let header = r.of(&[0, 1, 2, NONE]);
    let mut m = Maker { r, style, owner, protos: Vec::new() };
    for p in 0..style.protos {
        let proto = m.proto(p);
        m.protos.push(proto);
    }
    let externs = (0..style.externs).map(|_| m.declaration()).collect();
    let mut nodes: Vec<Node> = (0..style.nodes).map(|i| m.node(i)).collect();
    if m.r.percent(20) {
        m.ring(&mut nodes);
    }
    let bodies: Vec<_> = (0..style.protos).map(|p| m.body(p + 1, &nodes)).collect();
    let top = m.top();
    let mut protos = m.protos;
    for (proto, body) in protos.iter_mut().zip(bodies) {
        proto.body = body;
    }
    Doc { header, nodes, protos, externs, top }
}

impl Maker<'_> {
    fn name(&mut self) -> u32 {
        self.style.first_name + self.r.below(self.style.names) as u32
    }

    fn tag(&mut self) -> u32 {
        self.r.below(TAGS as usize) as u32
    }

    /// An id that leads nowhere in a group of `count`.
    fn nowhere(&mut self, count: usize) -> u32 {
        if self.r.percent(5) {
            NONE - 1
        } else {
            (count + self.r.below(3)) as u32
        }
    }

    /// A node that belongs to `owner`, after `from` where loops are not wanted.
    fn node_id(&mut self, owner: usize, from: Option<usize>) -> Option<u32> {
        if self.r.percent(self.style.dangling) {
            return Some(self.nowhere(self.style.nodes));
        }
        if self.r.percent(self.style.anywhere) {
            return Some(self.r.below(self.style.nodes) as u32);
        }
        let backward = self.r.percent(self.style.backward);
        let least = if backward { 0 } else { from.map_or(0, |f| f + 1) };
        let may: Vec<usize> = (least..self.style.nodes).filter(|i| self.owner[*i] == owner).collect();
        (!may.is_empty()).then(|| self.r.of(&may) as u32)
    }

    fn ids(&mut self, owner: usize, from: Option<usize>) -> Vec<u32> {
        let count = self.r.of(&[0, 1, 1, 1, 2, 2, 3]);
        (0..count).filter_map(|_| self.node_id(owner, from)).collect()
    }

    fn value(&mut self, owner: usize, from: Option<usize>) -> Value {
        let tag = self.tag();
        if self.r.percent(30) {
            Value::Payload { tag, number: self.payload() }
        } else {
            Value::Nodes { tag, ids: self.ids(owner, from) }
        }
    }

    fn payload(&mut self) -> u32 {
        if self.r.percent(5) {
            NONE
        } else {
            self.r.below(90) as u32
        }
    }

    /// A name of an interface list, or any.
    fn name_of(&mut self, interfaces: &[Interface]) -> u32 {
        if interfaces.is_empty() || self.r.percent(20) {
            self.name()
        } else {
            interfaces[self.r.below(interfaces.len())].name
        }
    }

    /// An IS target for a node of this owner.
    fn target(&mut self, owner: usize) -> u32 {
        if owner == 0 {
            return self.name();
        }
        let interfaces = self.protos[owner - 1].interfaces.clone();
        self.name_of(&interfaces)
    }

    fn interface(&mut self, value: Option<Value>, is: Option<u32>) -> Interface {
        Interface { access: self.r.below(4) as u32, tag: self.tag(), name: self.name(), is, value }
    }

    /// A PROTO without its body. Defaults mostly name nodes of later PROTOs, so that they end.
    fn proto(&mut self, p: usize) -> Proto {
        let count = self.r.of(&[0, 1, 1, 2, 2, 3, 4]);
        let mut interfaces = Vec::new();
        for _ in 0..count {
            let value = self.r.percent(55).then(|| {
                let owner = self.r.range(p + 1, self.style.protos.max(p + 1) + 1);
                self.value(owner.min(self.style.protos), None)
            });
            let is = self.r.percent(4).then(|| self.name());
            interfaces.push(self.interface(value, is));
        }
        Proto { name: self.name(), interfaces, body: Vec::new() }
    }

    fn declaration(&mut self) -> Extern {
        let count = self.r.of(&[0, 0, 1, 2]);
        let mut interfaces = Vec::new();
        for _ in 0..count {
            let is = self.r.percent(10).then(|| self.name());
            interfaces.push(self.interface(None, is));
        }
        let count = self.r.of(&[0, 1, 1, 2, 3]);
        let [from, to] = self.style.bases;
        let urls =
            (0..count).map(|_| (self.r.range(from, to) as u32, self.r.percent(45).then(|| self.name()))).collect();
        Extern { name: self.name(), interfaces, urls }
    }

    fn origin(&mut self, owner: usize) -> Origin {
        let (protos, externs) = (self.style.protos, self.style.externs);
        if self.r.percent(self.style.instance) {
            if self.r.percent(self.style.dangling) {
                return Origin::Proto(self.nowhere(protos));
            }
            let least = if self.r.percent(self.style.recursion) { 0 } else { owner };
            if least < protos {
                return Origin::Proto(self.r.range(least, protos - 1) as u32);
            }
        }
        if self.r.percent(self.style.fetched) {
            if self.r.percent(self.style.dangling) {
                return Origin::Extern(self.nowhere(externs));
            }
            if externs > 0 {
                return Origin::Extern(self.r.below(externs) as u32);
            }
        }
        if self.r.percent(80) {
            Origin::Builtin
        } else {
            Origin::Unknown
        }
    }

    fn node(&mut self, i: usize) -> Node {
        let owner = self.owner[i];
        let origin = self.origin(owner);
        let mut node = Node::new(50 + self.r.below(9) as u32, origin);
        node.def = self.r.percent(35).then(|| self.name());
        let declared = match origin {
            Origin::Proto(p) => self.protos.get(p as usize).map_or(Vec::new(), |p| p.interfaces.clone()),
            _ => Vec::new(),
        };
        let count = self.r.of(&[0, 1, 1, 2, 2, 3, 4]);
        for _ in 0..count {
            let binding = if self.r.percent(if owner == 0 { self.style.is / 4 } else { self.style.is }) {
                Binding::Is(self.target(owner))
            } else {
                Binding::Value(self.value(owner, Some(i)))
            };
            let name = self.name_of(&declared);
            node.fields.push(Field { name, binding, inferred: self.r.below(2) as u32 });
        }
        if self.r.percent(self.style.extras) {
            for _ in 0..self.r.range(1, 3) {
                let is = self.r.percent(self.style.is).then(|| self.target(owner));
                let value = self.r.percent(60).then(|| self.value(owner, Some(i)));
                node.interfaces.push(self.interface(value, is));
            }
        }
        if self.r.percent(self.style.extras) {
            for _ in 0..self.r.range(1, 3) {
                let s = self.statement(owner);
                node.statements.push(s);
            }
        }
        node.order = self.order(&node);
        if self.r.percent(self.style.extras / 5) {
            node.instance = Some(self.record());
        }
        node
    }

    /// A loop through an instance: a declared field of it names a node whose field names it.
    fn ring(&mut self, nodes: &mut [Node]) {
        let interfaces = |node: &Node| match node.origin {
            Origin::Proto(p) => self.protos.get(p as usize).map_or(&[][..], |p| &p.interfaces),
            _ => &[],
        };
        let may: Vec<usize> = (0..nodes.len()).filter(|i| !interfaces(&nodes[*i]).is_empty()).collect();
        if may.is_empty() {
            return;
        }
        let i = self.r.of(&may);
        // Only over a plain node does the loop close; over instances alone it runs into the depth limit.
        let any = self.r.percent(5);
        let plain = |j: &usize| any || !matches!(nodes[*j].origin, Origin::Proto(_));
        let beside: Vec<usize> = (0..nodes.len()).filter(|j| self.owner[*j] == self.owner[i]).filter(plain).collect();
        if beside.is_empty() {
            return;
        }
        let j = self.r.of(&beside);
        let there = self.name_of(&interfaces(&nodes[i]).to_vec());
        let back = self.name();
        for (at, name, id) in [(i, there, j), (j, back, i)] {
            let value = Value::Nodes { tag: self.tag(), ids: vec![id as u32] };
            nodes[at].fields.push(Field { name, binding: Binding::Value(value), inferred: 0 });
        }
    }

    /// Marks: none, one to an entry in some order, or any.
    fn order(&mut self, node: &Node) -> Vec<u32> {
        let mut marks = Vec::new();
        match self.r.below(10) {
            0..=4 => {}
            5..=7 => {
                marks.extend(node.fields.iter().map(|_| MARK_FIELD));
                marks.extend(node.interfaces.iter().map(|_| MARK_INTERFACE));
                marks.extend(node.statements.iter().map(|_| MARK_STATEMENT));
                for i in (1..marks.len()).rev() {
                    marks.swap(i, self.r.below(i + 1));
                }
            }
            _ => marks.extend((0..self.r.range(1, 7)).map(|_| self.r.below(3) as u32)),
        }
        marks
    }

    /// An input record, which Expand drops; its ids are unread.
    fn record(&mut self) -> Record {
        let nodes = self.style.nodes + 2;
        let roots = (0..self.r.below(3)).map(|_| self.r.below(nodes) as u32).collect();
        let routes = (0..self.r.below(2)).map(|_| self.route(0)).collect();
        let associations =
            (0..self.r.below(3)).map(|_| [self.name(), self.r.below(nodes) as u32, self.name()]).collect();
        Record { name: self.name(), roots, routes, associations }
    }

    fn route(&mut self, owner: usize) -> Route {
        let names = [self.name(), self.name(), self.name(), self.name()];
        let mut end = || if self.r.percent(15) { None } else { self.end(owner) };
        Route { names, from: end(), to: end() }
    }

    fn end(&mut self, owner: usize) -> Option<u32> {
        if self.r.percent(10) {
            return Some(self.r.below(self.style.nodes + 2) as u32);
        }
        self.node_id(owner, None)
    }

    /// A statement of any kind.
    fn statement(&mut self, owner: usize) -> Statement {
        let dangling = self.r.percent(self.style.dangling);
        match self.r.below(8) {
            0 => Statement::Node(self.r.below(self.style.nodes + 2) as u32),
            1 => Statement::Proto(self.r.below(self.style.protos + 2) as u32),
            2 | 3 if dangling => Statement::Extern(self.nowhere(self.style.externs)),
            2 | 3 if self.style.externs > 0 => Statement::Extern(self.r.below(self.style.externs) as u32),
            4 => Statement::Other(self.payload()),
            _ => Statement::Route(self.route(owner)),
        }
    }

    /// Node statements of an owner, with others among them. A Node statement may be missing, or come twice.
    fn list(&mut self, owner: usize, counts: &[usize]) -> Vec<Statement> {
        let mut list = Vec::new();
        for _ in 0..self.r.of(counts) {
            if let Some(id) = self.node_id(owner, None) {
                list.push(Statement::Node(id));
            }
        }
        if self.r.percent(self.style.extras + 10) {
            for _ in 0..self.r.range(1, 4) {
                let s = match self.statement(owner) {
                    Statement::Node(_) => Statement::Other(self.payload()),
                    s => s,
                };
                let at = self.r.below(list.len() + 1);
                list.insert(at, s);
            }
        }
        list
    }

    fn body(&mut self, owner: usize, nodes: &[Node]) -> Vec<Statement> {
        let mut list = self.list(owner, &[1, 1, 1, 2, 2, 3]);
        let empty = !list.iter().any(|s| matches!(s, Statement::Node(_)));
        if empty && !self.r.percent(10) {
            // Nothing belongs to this PROTO: some plain node, rather than 7.
            let plain = nodes.iter().rposition(|n| !matches!(n.origin, Origin::Proto(_)));
            list.push(Statement::Node(plain.unwrap_or(0) as u32));
        }
        list
    }

    fn top(&mut self) -> Vec<Statement> {
        let mut list = self.list(0, &[0, 1, 1, 1, 2, 2, 2, 3, 4]);
        for p in 0..self.style.protos {
            if self.r.percent(70) {
                let id = if self.r.percent(self.style.dangling) { self.nowhere(self.style.protos) } else { p as u32 };
                let at = self.r.below(list.len() + 1);
                list.insert(at, Statement::Proto(id));
            }
        }
        list
    }
}
