//! Rows to the original's `Document` and back. Written apart from `grammar` and `tree`: a flat scan over rows that are known
//! to fit, so that a slip in the one reading of the sheet is not repeated in the other.

use original::ast::{
    AccessType, BodyElement, Document, ExternProtoDecl, ExternProtoId, Field, FieldBinding, FieldData, FieldType,
    FieldValue, InterfaceDecl, Node, NodeId, NodeOrigin, ProtoDecl, ProtoId, ProtoInstance, Route, Statement,
};

use crate::rows::{Row, NONE};

/// A name's text.
pub fn text(name: u32) -> String {
    format!("n{name}")
}

/// The number of a name's text.
fn number(text: &str) -> u32 {
    text[1..].parse().expect("a name made by `text`")
}

fn text_or_none(word: u32) -> Option<String> {
    (word != NONE).then(|| text(word))
}

fn id_or_none(word: u32) -> Option<NodeId> {
    (word != NONE).then_some(NodeId(word))
}

const ACCESS: [AccessType; 4] =
    [AccessType::EventIn, AccessType::EventOut, AccessType::Field, AccessType::ExposedField];
const MARKS: [BodyElement; 3] = [BodyElement::Field, BodyElement::Interface, BodyElement::Statement];

/// Whose interfaces, statements and ids the next rows are.
#[derive(PartialEq)]
enum Owner {
    Node,
    Record,
    Proto,
    Extern,
    Top,
}

/// The document of a root sheet.
pub fn document(rows: &[Row]) -> Document {
    let mut doc = Document::default();
    let mut owner = Owner::Top;
    for r in rows {
        let [kind, a, b, c, d, e, f, g] = *r;
        match kind {
            1 => doc.header.comment = text(a),
            2 => {
                let mut node = Node::new(text(a));
                node.def_name = text_or_none(b);
                node.origin = match c {
                    0 => NodeOrigin::Builtin,
                    1 => NodeOrigin::Proto(ProtoId(d)),
                    2 => NodeOrigin::ExternProto(ExternProtoId(d)),
                    _ => NodeOrigin::Unknown,
                };
                doc.nodes.push(node);
                owner = Owner::Node;
            }
            3 => {
                let binding = match value(e, f, g) {
                    Some(v) => FieldBinding::Value(v),
                    None => FieldBinding::Is(text(c)),
                };
                let field = Field { name: text(a), binding, inferred: d == 1 };
                doc.nodes.last_mut().unwrap().fields.push(field);
            }
            4 => {
                let decl = InterfaceDecl {
                    access: ACCESS[a as usize],
                    field_type: FieldType::ALL[b as usize],
                    name: text(c),
                    value: value(e, f, g),
                    is: text_or_none(d),
                };
                interfaces(&mut doc, &owner).push(decl);
            }
            5 => {
                let s = statement(r);
                match owner {
                    Owner::Node => doc.nodes.last_mut().unwrap().statements.push(s),
                    Owner::Record => match s {
                        Statement::Route(route) => record(&mut doc).routes.push(route),
                        _ => unreachable!(),
                    },
                    Owner::Proto => doc.protos.last_mut().unwrap().body.push(s),
                    _ => doc.statements.push(s),
                }
            }
            6 => doc.nodes.last_mut().unwrap().body_order.push(MARKS[a as usize]),
            7 => {
                doc.protos.push(ProtoDecl { name: text(a), interface: Vec::new(), body: Vec::new() });
                owner = Owner::Proto;
            }
            8 => {
                doc.extern_protos.push(ExternProtoDecl { name: text(a), interface: Vec::new(), urls: Vec::new() });
                owner = Owner::Extern;
            }
            9 if owner == Owner::Record => record(&mut doc).extra_roots.push(NodeId(a)),
            9 => last_ids(&mut doc, &owner).push(NodeId(a)),
            10 => {
                let url = match text_or_none(b) {
                    Some(fragment) => format!("{}#{}", text(a), fragment),
                    None => text(a),
                };
                doc.extern_protos.last_mut().unwrap().urls.push(url);
            }
            11 => owner = Owner::Top,
            13 => {
                let mut record = ProtoInstance::default();
                record.proto_name = text(a);
                doc.nodes.last_mut().unwrap().instance = Some(Box::new(record));
                owner = Owner::Record;
            }
            14 => record(&mut doc).is_map.push((text(a), NodeId(b), text(c))),
            _ => unreachable!("a row that fits"),
        }
    }
    doc
}

/// The files of a library sheet: base and document.
pub fn files(rows: &[Row]) -> Vec<(String, Document)> {
    rows.chunk_by(|_, next| next[0] != 12).map(|file| (text(file[0][1]), document(&file[1..]))).collect()
}

fn record(doc: &mut Document) -> &mut ProtoInstance {
    doc.nodes.last_mut().unwrap().instance.as_mut().unwrap()
}

fn interfaces<'a>(doc: &'a mut Document, owner: &Owner) -> &'a mut Vec<InterfaceDecl> {
    match owner {
        Owner::Proto => &mut doc.protos.last_mut().unwrap().interface,
        Owner::Extern => &mut doc.extern_protos.last_mut().unwrap().interface,
        _ => &mut doc.nodes.last_mut().unwrap().interface,
    }
}

/// The list that an id row continues: that of the last interface, or of the last field before any interface.
fn last_ids<'a>(doc: &'a mut Document, owner: &Owner) -> &'a mut Vec<NodeId> {
    let in_field = *owner == Owner::Node && doc.nodes.last().unwrap().interface.is_empty();
    let value = if in_field {
        match &mut doc.nodes.last_mut().unwrap().fields.last_mut().unwrap().binding {
            FieldBinding::Value(v) => v,
            FieldBinding::Is(_) => unreachable!(),
        }
    } else {
        interfaces(doc, owner).last_mut().unwrap().value.as_mut().unwrap()
    };
    match &mut value.data {
        FieldData::Nodes(ids) => ids,
        _ => unreachable!(),
    }
}

fn value(tag: u32, class: u32, g: u32) -> Option<FieldValue> {
    let data = match class {
        0 => return None,
        1 => FieldData::Int32s(vec![g as i32]),
        _ => FieldData::Nodes(Vec::new()),
    };
    Some(FieldValue { ty: FieldType::ALL[tag as usize], data })
}

fn statement(r: &Row) -> Statement {
    match r[1] {
        0 => Statement::Node(NodeId(r[2])),
        1 => Statement::Proto(ProtoId(r[2])),
        2 => Statement::ExternProto(ExternProtoId(r[2])),
        3 => Statement::Route(Route {
            from_node: text(r[2]),
            from_field: text(r[3]),
            to_node: text(r[4]),
            to_field: text(r[5]),
            from_id: id_or_none(r[6]),
            to_id: id_or_none(r[7]),
        }),
        _ => other(r[2]),
    }
}

/// One of the original's six other statements, by the payload.
fn other(payload: u32) -> Statement {
    let t = text(payload);
    match payload % 6 {
        0 => Statement::Profile(t),
        1 => Statement::Component { name: t, level: payload as i32 },
        2 => Statement::Meta { name: t.clone(), content: t },
        3 => Statement::Unit { category: t.clone(), name: t, factor: 2.0 },
        4 => Statement::Import { inline_def: t.clone(), exported: t, as_name: None },
        _ => Statement::Export { local: t.clone(), as_name: Some(t) },
    }
}

/// The rows of a document, in document 01's order.
pub fn rows(doc: &Document) -> Vec<Row> {
    let mut out = vec![[1, number(&doc.header.comment), 0, 0, 0, 0, 0, 0]];
    for node in &doc.nodes {
        node_rows(node, &mut out);
    }
    for proto in &doc.protos {
        out.push([7, number(&proto.name), 0, 0, 0, 0, 0, 0]);
        interface_rows(&proto.interface, &mut out);
        out.extend(proto.body.iter().map(statement_row));
    }
    for e in &doc.extern_protos {
        out.push([8, number(&e.name), 0, 0, 0, 0, 0, 0]);
        interface_rows(&e.interface, &mut out);
        for url in &e.urls {
            let (base, fragment) = match url.split_once('#') {
                Some((base, fragment)) => (number(base), number(fragment)),
                None => (number(url), NONE),
            };
            out.push([10, base, fragment, 0, 0, 0, 0, 0]);
        }
    }
    out.push([11, 0, 0, 0, 0, 0, 0, 0]);
    out.extend(doc.statements.iter().map(statement_row));
    out
}

fn node_rows(node: &Node, out: &mut Vec<Row>) {
    let (origin, id) = match node.origin {
        NodeOrigin::Builtin => (0, 0),
        NodeOrigin::Proto(ProtoId(id)) => (1, id),
        NodeOrigin::ExternProto(ExternProtoId(id)) => (2, id),
        NodeOrigin::Unknown => (3, 0),
        _ => unreachable!(),
    };
    out.push([2, number(&node.type_name), number_or_none(&node.def_name), origin, id, 0, 0, 0]);
    for field in &node.fields {
        let (a, inferred) = (number(&field.name), field.inferred as u32);
        match &field.binding {
            FieldBinding::Is(target) => out.push([3, a, 1, number(target), inferred, 0, 0, 0]),
            FieldBinding::Value(v) => {
                let [e, f, g] = value_words(v);
                out.push([3, a, 0, 0, inferred, e, f, g]);
                id_rows(v, out);
            }
        }
    }
    interface_rows(&node.interface, out);
    out.extend(node.statements.iter().map(statement_row));
    for element in &node.body_order {
        let mark = MARKS.iter().position(|m| m == element).unwrap() as u32;
        out.push([6, mark, 0, 0, 0, 0, 0, 0]);
    }
    if let Some(i) = &node.instance {
        let counts = [i.extra_roots.len(), i.routes.len(), i.is_map.len()].map(|n| n as u32);
        out.push([13, number(&i.proto_name), counts[0], counts[1], counts[2], 0, 0, 0]);
        out.extend(i.extra_roots.iter().map(|id| [9, id.0, 0, 0, 0, 0, 0, 0]));
        out.extend(i.routes.iter().map(route_row));
        for (name, inner, field) in &i.is_map {
            out.push([14, number(name), inner.0, number(field), 0, 0, 0, 0]);
        }
    }
}

fn interface_rows(decls: &[InterfaceDecl], out: &mut Vec<Row>) {
    for d in decls {
        let access = ACCESS.iter().position(|x| *x == d.access).unwrap() as u32;
        let [e, f, g] = d.value.as_ref().map_or([0, 0, 0], value_words);
        out.push([4, access, tag(d.field_type), number(&d.name), number_or_none(&d.is), e, f, g]);
        if let Some(v) = &d.value {
            id_rows(v, out);
        }
    }
}

fn statement_row(s: &Statement) -> Row {
    let other = |t: &str| [5, 4, number(t), 0, 0, 0, 0, 0];
    match s {
        Statement::Node(id) => [5, 0, id.0, 0, 0, 0, 0, 0],
        Statement::Proto(id) => [5, 1, id.0, 0, 0, 0, 0, 0],
        Statement::ExternProto(id) => [5, 2, id.0, 0, 0, 0, 0, 0],
        Statement::Route(r) => route_row(r),
        Statement::Profile(t) => other(t),
        Statement::Component { name, .. } => other(name),
        Statement::Meta { content, .. } => other(content),
        Statement::Unit { name, .. } => other(name),
        Statement::Import { exported, .. } => other(exported),
        Statement::Export { as_name, .. } => other(as_name.as_ref().unwrap()),
        _ => unreachable!(),
    }
}

fn route_row(r: &Route) -> Row {
    let end = |id: Option<NodeId>| id.map_or(NONE, |i| i.0);
    [
        5,
        3,
        number(&r.from_node),
        number(&r.from_field),
        number(&r.to_node),
        number(&r.to_field),
        end(r.from_id),
        end(r.to_id),
    ]
}

fn number_or_none(name: &Option<String>) -> u32 {
    name.as_ref().map_or(NONE, |t| number(t))
}

fn tag(ty: FieldType) -> u32 {
    FieldType::ALL.iter().position(|t| *t == ty).unwrap() as u32
}

/// Columns e, f, g of a value.
fn value_words(v: &FieldValue) -> [u32; 3] {
    match &v.data {
        FieldData::Nodes(ids) => [tag(v.ty), 2, ids.len() as u32],
        FieldData::Int32s(payload) => [tag(v.ty), 1, payload[0] as u32],
        _ => unreachable!("a value made by `value`"),
    }
}

fn id_rows(v: &FieldValue, out: &mut Vec<Row>) {
    if let FieldData::Nodes(ids) = &v.data {
        out.extend(ids.iter().map(|id| [9, id.0, 0, 0, 0, 0, 0, 0]));
    }
}
