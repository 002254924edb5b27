//! Wish 6: an instance's field bound by IS to something without a value takes the default, "as if no field of that name were
//! there". The original takes none. So it is no reference where such a default is taken; but with those fields taken out
//! of the sheets it is one again.

use std::collections::HashSet;

use crate::call::Call;
use crate::grammar;
use crate::rows::words_of;
use crate::tree::{print, print_library};

/// A field of an instance: document, node id, name.
pub type FieldOf = (usize, u32, u32);

/// The fields of instances bound by IS, as the steps met them. One may be in both: its node may stand in two scopes.
#[derive(Default)]
pub struct Bound {
    /// The target had a value.
    pub valued: HashSet<FieldOf>,
    /// The target had none, and the default was taken.
    pub unset: HashSet<FieldOf>,
}

impl Bound {
    /// Whether a default was taken because of an IS.
    pub fn takes_default(&self) -> bool {
        !self.unset.is_empty()
    }

    /// The call without the fields that took a default; nothing where one of them had a value in another scope.
    pub fn without(&self, call: &Call) -> Option<Call> {
        if !self.unset.is_disjoint(&self.valued) {
            return None;
        }
        let mut root = grammar::root(&call.root).ok()?;
        let mut files = grammar::library(&call.library).ok()?;
        for (document, id, name) in &self.unset {
            let doc = if *document == 0 { &mut root } else { &mut files[document - 1].doc };
            doc.nodes[*id as usize].fields.retain(|f| f.name != *name);
        }
        Some(Call { root: words_of(&print(&root)), library: words_of(&print_library(&files)), ..call.clone() })
    }
}
