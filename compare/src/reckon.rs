//! The reference: document 01's operation Expand with the wishes of document 02, written from their text and their readings.
//!
//! `expand` gives the whole answer of a call: refusals 1 to 3 are here, the others in `steps`.

use std::collections::HashSet;

use crate::bound::Bound;
use crate::call::{refuse, Answer, Call, Expanded};
use crate::grammar;
use crate::mutants::Mutant;
use crate::picks::picks;
use crate::rows::{Row, EXTERN, MOST_ROWS, URL};
use crate::steps::Steps;
use crate::tree::{print, Doc};

/// The answer of a call, and the fields bound by IS that its steps met.
pub struct Reckoned {
    pub answer: Answer,
    pub bound: Bound,
    /// A file of the library declares an extern, fetched or not: the original is no reference (document 02, wish 12).
    pub linked: bool,
    /// What there is to tell of marks, by the names of coverage's shapes.
    #[cfg_attr(not(feature = "library"), allow(dead_code))]
    pub noted: HashSet<&'static str>,
    /// What is found by a key, as the steps made it.
    pub keys: Vec<[u32; 2]>,
}

/// The answer of a call; a mutant breaks one reading on purpose.
pub fn expand(call: &Call, mutant: Option<Mutant>) -> Answer {
    reckon(call, mutant).answer
}

/// The same with what was met on the way.
pub fn reckon(call: &Call, mutant: Option<Mutant>) -> Reckoned {
    let mut bound = Bound::default();
    let mut noted = HashSet::new();
    let mut keys = Vec::new();
    let answer = answer(call, mutant, &mut bound, &mut noted, &mut keys);
    let linked = call.library.chunks(8).any(|row| row[0] == EXTERN);
    Reckoned { answer, bound, linked, noted, keys }
}

fn answer(
    call: &Call,
    mutant: Option<Mutant>,
    bound: &mut Bound,
    noted: &mut HashSet<&'static str>,
    keys: &mut Vec<[u32; 2]>,
) -> Answer {
    if !call.in_room() {
        return refuse(1, 0, 0);
    }
    if [&call.root, &call.library].iter().any(|s| s.len() % 8 != 0 || s.len() / 8 > MOST_ROWS) {
        return refuse(2, 0, 0);
    }
    let marks = mutant == Some(Mutant::MarkedSheetsAccepted);
    let root = grammar::document(&call.root, marks).or_else(|row| refuse(3, 0, row as u32))?;
    let files = grammar::files(&call.library, marks).or_else(|row| refuse(3, 1, row as u32))?;
    let docs = std::iter::once(&root).chain(files.iter().map(|f| &f.doc)).collect();
    let mut steps = Steps::new(call, docs, picks(&root, &files, mutant), mutant);
    let top = steps.run();
    std::mem::swap(bound, &mut steps.bound);
    std::mem::swap(noted, &mut steps.noted);
    std::mem::swap(keys, &mut steps.keys);
    let top = top?;
    let out = Doc { header: root.header, nodes: steps.nodes, protos: Vec::new(), externs: steps.externs, top };
    Ok(Expanded {
        nodes: out.nodes.len() as u32,
        charges: steps.charges as u32,
        out: marked(print(&out), &steps.marks),
        ledger: steps.ledger,
        scopes: steps.scopes.iter().map(|s| s.entry).collect(),
        instances: steps.scopes.iter().map(|s| s.instance).collect(),
    })
}

/// The output's rows with its urls marked.
fn marked(mut rows: Vec<Row>, marks: &[Vec<bool>]) -> Vec<Row> {
    let urls = rows.iter_mut().filter(|r| r[0] == URL);
    for (row, used) in urls.zip(marks.iter().flatten()) {
        row[3] = *used as u32;
    }
    rows
}
