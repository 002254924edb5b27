//! Picks: which PROTO of which file stands for each extern of the root, and of the files that are fetched (document 02, wish 12).
//!
//! "Root externs come first, then those of each fetched document in order of first fetch. The 64 bases are counted over the
//! whole run. A pick belongs to a document and an extern id."

use std::collections::VecDeque;

use crate::mutants::Mutant;
use crate::tree::{Doc, Extern, File, Statement};

/// Most distinct bases that are looked at, over the whole run.
pub const MOST_BASES: usize = 64;

/// What a pick found: document number, PROTO id, and the index of the url that it took.
#[derive(Clone, Copy, PartialEq)]
pub struct Pick {
    pub document: usize,
    pub proto: u32,
    pub url: usize,
}

impl Pick {
    /// Document number and PROTO id.
    pub fn prototype(self) -> (usize, u32) {
        (self.document, self.proto)
    }
}

/// The picks of a run. Document 0 is the root, document n the n-th file.
#[derive(PartialEq)]
pub struct Picks {
    /// Of each document the pick of each extern, where there is one. A document that nothing fetches has none.
    of: Vec<Vec<Option<Pick>>>,
    /// The documents fetched, in order of first fetch: found for a base in the table, pick or none.
    pub fetched: Vec<usize>,
    /// The table of bases, those without a file too.
    pub bases: Vec<u32>,
    /// The documents with a url whose base was passed over, the table being full.
    pub passed_over: Vec<usize>,
}

impl Picks {
    /// The pick of an extern of a document.
    pub fn get(&self, document: usize, id: u32) -> Option<Pick> {
        *self.of.get(document)?.get(id as usize)?
    }

    /// The pick of any document's extern of this id, the first by document number: what a table by ids alone would have.
    pub fn of_id(&self, id: u32) -> Option<Pick> {
        (0..self.of.len()).find_map(|document| self.get(document, id))
    }

    /// The same picks, each from the final table alone: a base that was passed over never enters later.
    pub fn by_table(&self, root: &Doc, files: &[File]) -> Picks {
        let mut of = vec![Vec::new(); files.len() + 1];
        for document in std::iter::once(0).chain(self.fetched.iter().copied()) {
            let doc = if document == 0 { root } else { &files[document - 1].doc };
            let pick = |declared: &Extern| {
                declared.urls.iter().enumerate().find_map(|(url, (base, fragment))| {
                    let at = files.iter().rposition(|f| f.base == *base && self.bases.contains(base))?;
                    let proto = choose(&files[at].doc, *fragment, false)?;
                    Some(Pick { document: at + 1, proto, url })
                })
            };
            of[document] = doc.externs.iter().map(pick).collect();
        }
        Picks { of, fetched: self.fetched.clone(), bases: self.bases.clone(), passed_over: self.passed_over.clone() }
    }
}

/// The picks of a root and its library. Of several files with the same base the last is used.
pub fn picks(root: &Doc, files: &[File], mutant: Option<Mutant>) -> Picks {
    let of = vec![Vec::new(); files.len() + 1];
    let found = Picks { of, fetched: Vec::new(), bases: Vec::new(), passed_over: Vec::new() };
    let mut walk = Walk { root, files, mutant, found, waiting: VecDeque::new(), tried: Vec::new() };
    walk.document(0);
    if walk.is(Mutant::UnfetchedFilesWalked) {
        (1..=files.len()).for_each(|document| walk.document(document));
        return walk.found;
    }
    while let Some(document) = walk.next() {
        walk.document(document);
    }
    walk.found
}

/// The walk over the externs of one document after the other.
struct Walk<'a> {
    root: &'a Doc,
    files: &'a [File],
    mutant: Option<Mutant>,
    found: Picks,
    /// Documents fetched whose externs are still to come.
    waiting: VecDeque<usize>,
    /// The table where it is counted anew for each document.
    tried: Vec<u32>,
}

impl Walk<'_> {
    fn is(&self, mutant: Mutant) -> bool {
        self.mutant == Some(mutant)
    }

    /// The document whose externs come next.
    fn next(&mut self) -> Option<usize> {
        if self.is(Mutant::FetchedInLibraryOrder) {
            let at = (0..self.waiting.len()).min_by_key(|at| self.waiting[*at])?;
            return self.waiting.remove(at);
        }
        self.waiting.pop_front()
    }

    /// The externs of a document, in order.
    fn document(&mut self, document: usize) {
        let (root, files) = (self.root, self.files);
        let doc = if document == 0 { root } else { &files[document - 1].doc };
        let before = std::mem::take(&mut self.waiting);
        self.tried.clear();
        for declared in &doc.externs {
            let pick = self.declared(document, declared);
            self.found.of[document].push(pick);
        }
        if self.is(Mutant::FetchedDepthFirst) {
            self.waiting.extend(before);
        } else {
            let fetched = std::mem::replace(&mut self.waiting, before);
            self.waiting.extend(fetched);
        }
    }

    /// One extern: its urls in order, up to the first with a pick.
    fn declared(&mut self, document: usize, declared: &Extern) -> Option<Pick> {
        for (url, (base, fragment)) in declared.urls.iter().enumerate() {
            if !self.looked_for(document, *base) {
                continue;
            }
            let Some(at) = self.file(*base, *fragment) else { continue };
            let proto = choose(&self.files[at].doc, *fragment, self.is(Mutant::DanglingPickPassedOver));
            if proto.is_some() || !self.is(Mutant::FileWithoutPickPassedOver) {
                self.fetch(document, at + 1);
            }
            if let Some(proto) = proto {
                return Some(Pick { document: at + 1, proto, url });
            }
        }
        None
    }

    /// Whether a base is in the table, which it enters if there is room.
    fn looked_for(&mut self, document: usize, base: u32) -> bool {
        let resolved = self.files.iter().any(|f| f.base == base);
        let free = self.is(Mutant::UnresolvedBasesDoNotCount)
            || self.is(Mutant::UnresolvedBasesOfFilesDoNotCount) && document > 0;
        let per_document = self.is(Mutant::BasesCountedPerDocument);
        let table = if per_document { &mut self.tried } else { &mut self.found.bases };
        if !table.contains(&base) && (resolved || !free) {
            if table.len() == MOST_BASES && self.mutant != Some(Mutant::BasesWithoutEnd) {
                if self.found.passed_over.last() != Some(&document) {
                    self.found.passed_over.push(document);
                }
                return false;
            }
            table.push(base);
        }
        true
    }

    /// The file of a base, by its place in the library.
    fn file(&self, base: u32, fragment: Option<u32>) -> Option<usize> {
        let of_base: Vec<usize> = (0..self.files.len()).filter(|at| self.files[*at].base == base).collect();
        match of_base[..] {
            [first, ..] if self.is(Mutant::FirstFileOfBase) => Some(first),
            [.., before, _] if self.is(Mutant::FileBeforeTheLast) && of_base.len() > 2 => Some(before),
            _ if self.is(Mutant::NewestWithAPick) => {
                of_base.iter().rev().copied().find(|at| choose(&self.files[*at].doc, fragment, false).is_some())
            }
            _ => of_base.last().copied(),
        }
    }

    /// A file is found for a base in the table: where it is the first time, its externs are to come.
    fn fetch(&mut self, from: usize, document: usize) {
        if self.found.fetched.contains(&document) {
            return;
        }
        self.found.fetched.push(document);
        if self.is(Mutant::OneLevelOfFiles) && from > 0 || self.is(Mutant::UnfetchedFilesWalked) {
            return;
        }
        if self.is(Mutant::FetchedAtOnce) {
            self.document(document);
        } else {
            self.waiting.push_back(document);
        }
    }
}

/// The first top-level Proto statement; with a fragment, the first whose PROTO is there and has that name.
pub fn choose(file: &Doc, fragment: Option<u32>, pass_over: bool) -> Option<u32> {
    for statement in &file.top {
        let Statement::Proto(id) = statement else { continue };
        let proto = file.protos.get(*id as usize);
        let chosen = match fragment {
            None => proto.is_some() || !pass_over,
            Some(name) => proto.is_some_and(|p| p.name == name),
        };
        if chosen {
            return Some(*id);
        }
    }
    None
}
