//! Calls of the original, from sheets that fit to rows or a kind of refusal.

use std::collections::HashMap;
use std::time::Duration;

use original::ast::Document;
use original::error::Result as OriginalResult;
use original::syntax::expand::{expand_protos_resolving, ExpandLimits};

use crate::memory::now;
use crate::rows::{rows_of, Row};
use crate::translate;

/// What the original is called with: its own parsed documents.
pub struct Prepared {
    document: Document,
    files: Vec<(String, Document)>,
    limits: ExpandLimits,
}

/// The original's documents of two sheets.
pub fn prepare(root: &[u32], library: &[u32], max_nodes: u32, max_depth: u32) -> Prepared {
    Prepared {
        document: translate::document(&rows_of(root)),
        files: translate::files(&rows_of(library)),
        limits: ExpandLimits::default().with_max_nodes(max_nodes as usize).with_max_depth(max_depth as usize),
    }
}

impl Prepared {
    /// One expansion. The resolver answers with the last file of a base (document 02, wish 4).
    fn expand(&self) -> OriginalResult<Document> {
        let mut resolve = |base: &str| -> Option<Document> {
            self.files.iter().rfind(|(name, _)| name == base).map(|(_, document)| document.clone())
        };
        expand_protos_resolving(&self.document, &self.limits, &mut resolve)
    }

    /// The time of one expansion and nothing else: the files are handed over ready, and what it made is dropped afterwards.
    pub fn time(&self) -> Duration {
        // Of several files of one base the last stays.
        let mut ready: HashMap<&str, Document> =
            self.files.iter().map(|(name, document)| (name.as_str(), document.clone())).collect();
        let mut resolve = |base: &str| ready.remove(base);
        let start = now();
        let expanded = expand_protos_resolving(&self.document, &self.limits, &mut resolve);
        let time = now() - start;
        assert!(expanded.is_ok(), "a scene of the benchmark is refused by the original");
        time
    }
}

/// The original's answer: the rows of the expanded document, or document 01's number of its error.
pub fn expand(root: &[u32], library: &[u32], max_nodes: u32, max_depth: u32) -> Result<Vec<Row>, u32> {
    match prepare(root, library, max_nodes, max_depth).expand() {
        Ok(expanded) => Ok(translate::rows(&expanded)),
        Err(error) => Err(kind(&error.to_string())),
    }
}

/// Document 01's number of an error text.
fn kind(message: &str) -> u32 {
    let texts = [
        ("dangling EXTERNPROTO id", 4),
        ("dangling node id", 5),
        ("dangling PROTO id", 6),
        ("body has no root node", 7),
        ("PROTO expansion exceeds", 8),
        ("PROTO expansion nesting exceeds", 9),
    ];
    texts.iter().find(|(text, _)| message.contains(text)).unwrap_or_else(|| panic!("unknown error: {message}")).1
}
