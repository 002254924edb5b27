//! A scene and its library as one document: the nodes, PROTOs and externs of all documents one after another, and each
//! ExternProto node with a pick written as one of origin Proto. The original, which follows no extern of a file, expands that
//! in the same steps; so it holds all but the picks themselves (document 02, wish 12). Marks are left out: nothing is fetched.

use crate::call::Call;
use crate::grammar;
use crate::picks::picks;
use crate::rows::{words_of, MOST_ROWS, NONE};
use crate::tree::*;

/// An id that leads nowhere.
const NOWHERE: u32 = NONE - 1;

/// Where the groups of a document begin in the whole, and how many each has.
#[derive(Clone, Copy)]
struct Group {
    first: usize,
    count: usize,
}

impl Group {
    fn id(self, id: u32) -> u32 {
        if (id as usize) < self.count {
            self.first as u32 + id
        } else {
            NOWHERE
        }
    }
}

struct Groups {
    nodes: Group,
    protos: Group,
    externs: Group,
}

impl Groups {
    fn value(&self, value: &mut Value) {
        if let Value::Nodes { ids, .. } = value {
            ids.iter_mut().for_each(|id| *id = self.nodes.id(*id));
        }
    }

    fn interfaces(&self, interfaces: &mut [Interface]) {
        interfaces.iter_mut().filter_map(|i| i.value.as_mut()).for_each(|v| self.value(v));
    }

    fn statements(&self, statements: &mut [Statement]) {
        for statement in statements {
            match statement {
                Statement::Node(id) => *id = self.nodes.id(*id),
                Statement::Proto(id) => *id = self.protos.id(*id),
                Statement::Extern(id) => *id = self.externs.id(*id),
                Statement::Route(r) => {
                    [&mut r.from, &mut r.to].into_iter().flatten().for_each(|id| *id = self.nodes.id(*id));
                }
                Statement::Other(_) => {}
            }
        }
    }
}

/// The call with one document; nothing where its sheets do not fit, or it has too many rows.
pub fn merged(call: &Call) -> Option<Call> {
    let root = grammar::root(&call.root).ok()?;
    let files = grammar::library(&call.library).ok()?;
    let picks = picks(&root, &files, None);
    let docs: Vec<&Doc> = std::iter::once(&root).chain(files.iter().map(|f| &f.doc)).collect();
    let mut ends = [0; 3];
    let mut groups = Vec::new();
    for doc in &docs {
        let counts = [doc.nodes.len(), doc.protos.len(), doc.externs.len()];
        let [nodes, protos, externs] = [0, 1, 2].map(|i| Group { first: ends[i], count: counts[i] });
        groups.push(Groups { nodes, protos, externs });
        ends.iter_mut().zip(counts).for_each(|(end, count)| *end += count);
    }
    let mut whole = Doc { header: root.header, top: root.top.clone(), ..Doc::default() };
    groups[0].statements(&mut whole.top);
    for (number, (doc, own)) in docs.iter().zip(&groups).enumerate() {
        for node in &doc.nodes {
            let mut node = node.clone();
            node.origin = match node.origin {
                Origin::Proto(id) => Origin::Proto(own.protos.id(id)),
                Origin::Extern(id) => match picks.get(number, id) {
                    Some(pick) => Origin::Proto(groups[pick.document].protos.id(pick.proto)),
                    None => Origin::Extern(own.externs.id(id)),
                },
                origin => origin,
            };
            node.instance = None;
            for field in &mut node.fields {
                if let Binding::Value(value) = &mut field.binding {
                    own.value(value);
                }
            }
            own.interfaces(&mut node.interfaces);
            own.statements(&mut node.statements);
            whole.nodes.push(node);
        }
        for proto in &doc.protos {
            let mut proto = proto.clone();
            own.interfaces(&mut proto.interfaces);
            own.statements(&mut proto.body);
            whole.protos.push(proto);
        }
        whole.externs.extend(doc.externs.iter().cloned());
    }
    let rows = print(&whole);
    (rows.len() <= MOST_ROWS).then(|| Call { root: words_of(&rows), library: Vec::new(), ..call.clone() })
}
