//! The scenes: inputs of Expand, each made from a seed and a number alone.

pub mod damage;
pub mod expanded;
pub mod families;
pub mod free;
pub mod large;
pub mod lent;
pub mod limits;
pub mod stored;

pub use crate::call::MOST_CHARGES;

use crate::call::Call;
use crate::rows::words_of;
use crate::tree::{print, print_library, Doc, File};

/// A scene with its limits.
#[derive(Clone, Debug)]
pub struct Scene {
    pub root: Doc,
    pub files: Vec<File>,
    pub max_nodes: u32,
    pub max_depth: u32,
}

impl Scene {
    /// The call with this limit of charges.
    pub fn call(&self, max_rows: u32) -> Call {
        let root = words_of(&print(&self.root));
        let library = words_of(&print_library(&self.files));
        Call::new(root, library, self.max_nodes, self.max_depth, max_rows)
    }
}
