//! A sheet as a tree, and its printing back to rows.

use crate::rows::*;

#[derive(Clone, Debug, PartialEq, Eq)]
pub enum Value {
    Payload { tag: u32, number: u32 },
    Nodes { tag: u32, ids: Vec<u32> },
}

impl Value {
    /// The node ids of the value; none for a payload.
    pub fn ids(&self) -> &[u32] {
        match self {
            Value::Payload { .. } => &[],
            Value::Nodes { ids, .. } => ids,
        }
    }
}

#[derive(Clone, Debug, PartialEq, Eq)]
pub enum Binding {
    Value(Value),
    Is(u32),
}

#[derive(Clone, Debug, PartialEq, Eq)]
pub struct Field {
    pub name: u32,
    pub binding: Binding,
    pub inferred: u32,
}

#[derive(Clone, Debug, PartialEq, Eq)]
pub struct Interface {
    pub access: u32,
    pub tag: u32,
    pub name: u32,
    pub is: Option<u32>,
    pub value: Option<Value>,
}

#[derive(Clone, Debug, PartialEq, Eq)]
pub struct Route {
    /// From node, from field, to node, to field.
    pub names: [u32; 4],
    pub from: Option<u32>,
    pub to: Option<u32>,
}

#[derive(Clone, Debug, PartialEq, Eq)]
pub enum Statement {
    Node(u32),
    Proto(u32),
    Extern(u32),
    Route(Route),
    Other(u32),
}

#[derive(Clone, Copy, Debug, PartialEq, Eq)]
pub enum Origin {
    Builtin,
    Proto(u32),
    Extern(u32),
    Unknown,
}

/// An instance record: row 13 and the rows that it counts.
#[derive(Clone, Debug, PartialEq, Eq)]
pub struct Record {
    pub name: u32,
    pub roots: Vec<u32>,
    pub routes: Vec<Route>,
    /// Interface name, node, inner field.
    pub associations: Vec<[u32; 3]>,
}

#[derive(Clone, Debug, PartialEq, Eq)]
pub struct Node {
    pub type_name: u32,
    pub def: Option<u32>,
    pub origin: Origin,
    pub fields: Vec<Field>,
    pub interfaces: Vec<Interface>,
    pub statements: Vec<Statement>,
    pub order: Vec<u32>,
    pub instance: Option<Record>,
}

impl Node {
    /// A node of a type name and an origin, with nothing in it.
    pub fn new(type_name: u32, origin: Origin) -> Node {
        Node {
            type_name,
            def: None,
            origin,
            fields: Vec::new(),
            interfaces: Vec::new(),
            statements: Vec::new(),
            order: Vec::new(),
            instance: None,
        }
    }
}

#[derive(Clone, Debug, PartialEq, Eq)]
pub struct Proto {
    pub name: u32,
    pub interfaces: Vec<Interface>,
    pub body: Vec<Statement>,
}

#[derive(Clone, Debug, PartialEq, Eq)]
pub struct Extern {
    pub name: u32,
    pub interfaces: Vec<Interface>,
    /// Base and fragment.
    pub urls: Vec<(u32, Option<u32>)>,
}

#[derive(Clone, Debug, Default, PartialEq, Eq)]
pub struct Doc {
    pub header: u32,
    pub nodes: Vec<Node>,
    pub protos: Vec<Proto>,
    pub externs: Vec<Extern>,
    pub top: Vec<Statement>,
}

#[derive(Clone, Debug, PartialEq, Eq)]
pub struct File {
    pub base: u32,
    pub doc: Doc,
}

/// The rows of a root sheet.
pub fn print(doc: &Doc) -> Vec<Row> {
    let mut rows = Vec::new();
    print_doc(doc, &mut rows);
    rows
}

/// The rows of a library sheet.
pub fn print_library(files: &[File]) -> Vec<Row> {
    let mut rows = Vec::new();
    for file in files {
        rows.push([FILE, file.base, 0, 0, 0, 0, 0, 0]);
        print_doc(&file.doc, &mut rows);
    }
    rows
}

fn print_doc(doc: &Doc, rows: &mut Vec<Row>) {
    rows.push([DOCUMENT, doc.header, 0, 0, 0, 0, 0, 0]);
    for node in &doc.nodes {
        print_node(node, rows);
    }
    for proto in &doc.protos {
        rows.push([PROTO, proto.name, 0, 0, 0, 0, 0, 0]);
        print_interfaces(&proto.interfaces, rows);
        print_statements(&proto.body, rows);
    }
    for e in &doc.externs {
        rows.push([EXTERN, e.name, 0, 0, 0, 0, 0, 0]);
        print_interfaces(&e.interfaces, rows);
        for (base, fragment) in &e.urls {
            rows.push([URL, *base, fragment.unwrap_or(NONE), 0, 0, 0, 0, 0]);
        }
    }
    rows.push([TOP, 0, 0, 0, 0, 0, 0, 0]);
    print_statements(&doc.top, rows);
}

fn print_node(node: &Node, rows: &mut Vec<Row>) {
    let (origin, id) = match node.origin {
        Origin::Builtin => (0, 0),
        Origin::Proto(id) => (1, id),
        Origin::Extern(id) => (2, id),
        Origin::Unknown => (3, 0),
    };
    rows.push([NODE, node.type_name, node.def.unwrap_or(NONE), origin, id, 0, 0, 0]);
    for f in &node.fields {
        let (is, target, value) = match &f.binding {
            Binding::Value(v) => (0, 0, Some(v)),
            Binding::Is(target) => (1, *target, None),
        };
        let [e, class, g] = value_columns(value);
        rows.push([FIELD, f.name, is, target, f.inferred, e, class, g]);
        print_ids(value, rows);
    }
    print_interfaces(&node.interfaces, rows);
    print_statements(&node.statements, rows);
    for mark in &node.order {
        rows.push([ORDER, *mark, 0, 0, 0, 0, 0, 0]);
    }
    if let Some(r) = &node.instance {
        let count = |n: usize| n as u32;
        rows.push([
            INSTANCE,
            r.name,
            count(r.roots.len()),
            count(r.routes.len()),
            count(r.associations.len()),
            0,
            0,
            0,
        ]);
        for id in &r.roots {
            rows.push([ID, *id, 0, 0, 0, 0, 0, 0]);
        }
        for route in &r.routes {
            rows.push(route_row(route));
        }
        for [name, inner, field] in &r.associations {
            rows.push([ASSOCIATION, *name, *inner, *field, 0, 0, 0, 0]);
        }
    }
}

fn print_interfaces(interfaces: &[Interface], rows: &mut Vec<Row>) {
    for i in interfaces {
        let [e, class, g] = value_columns(i.value.as_ref());
        rows.push([INTERFACE, i.access, i.tag, i.name, i.is.unwrap_or(NONE), e, class, g]);
        print_ids(i.value.as_ref(), rows);
    }
}

fn print_statements(statements: &[Statement], rows: &mut Vec<Row>) {
    for s in statements {
        rows.push(match s {
            Statement::Node(id) => [STATEMENT, 0, *id, 0, 0, 0, 0, 0],
            Statement::Proto(id) => [STATEMENT, 1, *id, 0, 0, 0, 0, 0],
            Statement::Extern(id) => [STATEMENT, 2, *id, 0, 0, 0, 0, 0],
            Statement::Route(r) => route_row(r),
            Statement::Other(payload) => [STATEMENT, 4, *payload, 0, 0, 0, 0, 0],
        });
    }
}

fn route_row(r: &Route) -> Row {
    let [a, b, c, d] = r.names;
    [STATEMENT, 3, a, b, c, d, r.from.unwrap_or(NONE), r.to.unwrap_or(NONE)]
}

/// Columns e, f, g of a value.
fn value_columns(value: Option<&Value>) -> [u32; 3] {
    match value {
        None => [0, 0, 0],
        Some(Value::Payload { tag, number }) => [*tag, 1, *number],
        Some(Value::Nodes { tag, ids }) => [*tag, 2, ids.len() as u32],
    }
}

fn print_ids(value: Option<&Value>, rows: &mut Vec<Row>) {
    for id in value.map_or(&[][..], Value::ids) {
        rows.push([ID, *id, 0, 0, 0, 0, 0, 0]);
    }
}
