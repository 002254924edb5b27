//! A scene's document without prototypes.

use crate::tree::{Doc, Interface, Origin, Statement};

fn plain(interfaces: &mut [Interface]) {
    for i in interfaces.iter_mut().filter(|i| i.is.is_some()) {
        i.value = None;
    }
}

/// A scene's document as an expanded one.
pub fn expanded(mut doc: Doc) -> Doc {
    doc.protos.clear();
    doc.top.retain(|s| !matches!(s, Statement::Proto(_)));
    for node in &mut doc.nodes {
        if let Origin::Proto(_) = node.origin {
            node.origin = Origin::Unknown;
        }
        node.statements.retain(|s| matches!(s, Statement::Route(_) | Statement::Extern(_)));
        plain(&mut node.interfaces);
    }
    doc.externs.iter_mut().for_each(|e| plain(&mut e.interfaces));
    doc
}
