//! What the calls contained, so that nothing that must be tried is missing without notice.

use super::reckon::{ANSWER, FORM_DOCUMENTS, FORM_EXPANDED, FORM_LIBRARY, FORM_PROTOS, FORM_ROOT};
use super::{After, Call};
use crate::rows::URL;

/// A shape by its name, and whether a call with what is reckoned of it has it.
type Shape = (&'static str, fn(&Call, &After) -> bool);

fn fits(call: &Call, after: &After, form: u32) -> bool {
    call.form == form && after.result == 1
}

/// The row that doesn't fit, of a known form.
fn row(call: &Call, after: &After, form: u32) -> Option<usize> {
    (call.form == form && call.answer >= ANSWER && after.result == 0).then(|| after.answer[1] as usize)
}

fn rows(call: &Call) -> usize {
    call.words.len() / 8
}

fn whole(call: &Call) -> bool {
    call.words.len() % 8 == 0
}

fn kind(call: &Call, at: usize) -> u32 {
    call.words.get(8 * at).copied().unwrap_or(0)
}

fn of_kind(call: &Call, one: u32) -> usize {
    (0..rows(call)).filter(|at| kind(call, *at) == one).count()
}

/// How many urls have 1 in c.
fn marked(call: &Call) -> usize {
    call.words.chunks_exact(8).filter(|r| r[0] == URL && r[3] == 1).count()
}

/// Ends early: every whole row fits.
fn early(call: &Call, after: &After, form: u32) -> bool {
    row(call, after, form) == Some(rows(call)) && whole(call)
}

/// The row that doesn't fit is one of this kind.
fn at_kind(call: &Call, after: &After, form: u32, one: u32) -> bool {
    row(call, after, form).is_some_and(|at| at < rows(call) && kind(call, at) == one)
}

const SHAPES: [Shape; 48] = [
    ("a root sheet that fits", |c, a| fits(c, a, FORM_ROOT)),
    ("a root sheet that ends early", |c, a| early(c, a, FORM_ROOT) && rows(c) > 0),
    ("an empty root sheet", |c, a| early(c, a, FORM_ROOT) && rows(c) == 0),
    ("a root sheet, its first row", |c, a| row(c, a, FORM_ROOT) == Some(0) && rows(c) > 0),
    ("a root sheet, a later row", |c, a| row(c, a, FORM_ROOT).is_some_and(|at| at > 3 && at < rows(c))),
    ("a library that fits", |c, a| fits(c, a, FORM_LIBRARY) && of_kind(c, 12) > 1),
    ("an empty library", |c, a| fits(c, a, FORM_LIBRARY) && rows(c) == 0),
    ("a library that ends early", |c, a| early(c, a, FORM_LIBRARY)),
    ("a library, a row", |c, a| row(c, a, FORM_LIBRARY).is_some_and(|at| at > 0 && at < rows(c))),
    ("an expanded document that fits", |c, a| fits(c, a, FORM_EXPANDED)),
    ("an expanded document that ends early", |c, a| early(c, a, FORM_EXPANDED)),
    ("an expanded document, a proto", |c, a| at_kind(c, a, FORM_EXPANDED, 7)),
    ("an expanded document, a node", |c, a| at_kind(c, a, FORM_EXPANDED, 2)),
    ("an expanded document, a statement", |c, a| at_kind(c, a, FORM_EXPANDED, 5)),
    ("an expanded document, an interface", |c, a| at_kind(c, a, FORM_EXPANDED, 4)),
    ("an expanded document, a second document", |c, a| at_kind(c, a, FORM_EXPANDED, 1) && kind(c, 0) == 1),
    ("no document", |c, a| fits(c, a, FORM_DOCUMENTS) && rows(c) == 0),
    ("one document", |c, a| fits(c, a, FORM_DOCUMENTS) && of_kind(c, 1) == 1),
    ("two documents", |c, a| fits(c, a, FORM_DOCUMENTS) && of_kind(c, 1) == 2),
    ("five documents", |c, a| fits(c, a, FORM_DOCUMENTS) && of_kind(c, 1) == 5),
    ("documents, a row of the first", |c, a| {
        row(c, a, FORM_DOCUMENTS).is_some_and(|at| at < rows(c) && (1..=at).all(|at| kind(c, at) != 1))
    }),
    ("documents, a row of a later one", |c, a| {
        row(c, a, FORM_DOCUMENTS)
            .is_some_and(|at| at < rows(c) && kind(c, at) != 1 && (1..at).any(|at| kind(c, at) == 1))
    }),
    ("documents, the first ends early", |c, a| at_kind(c, a, FORM_DOCUMENTS, 1) && row(c, a, FORM_DOCUMENTS) > Some(0)),
    ("documents, the last ends early", |c, a| early(c, a, FORM_DOCUMENTS) && of_kind(c, 1) > 1),
    ("documents, a proto in a later one", |c, a| {
        at_kind(c, a, FORM_DOCUMENTS, 7)
            && row(c, a, FORM_DOCUMENTS).is_some_and(|at| (1..at).any(|at| kind(c, at) == 1))
    }),
    ("documents, a file's row", |c, a| at_kind(c, a, FORM_DOCUMENTS, 12) && of_kind(c, 1) > 0),
    ("documents, a row before the first", |c, a| row(c, a, FORM_DOCUMENTS) == Some(0) && of_kind(c, 1) > 0),
    ("no proto", |c, a| fits(c, a, FORM_PROTOS) && rows(c) == 0),
    ("one proto", |c, a| fits(c, a, FORM_PROTOS) && of_kind(c, 7) == 1),
    ("three protos", |c, a| fits(c, a, FORM_PROTOS) && of_kind(c, 7) == 3),
    ("protos with interfaces and ids", |c, a| fits(c, a, FORM_PROTOS) && of_kind(c, 4) > 1 && of_kind(c, 9) > 1),
    ("protos, a body statement", |c, a| at_kind(c, a, FORM_PROTOS, 5) && kind(c, 0) == 7),
    ("protos, an interface before the first", |c, a| {
        at_kind(c, a, FORM_PROTOS, 4) && row(c, a, FORM_PROTOS) == Some(0)
    }),
    ("protos, an id that is not owed", |c, a| at_kind(c, a, FORM_PROTOS, 9) && kind(c, 0) == 7),
    ("protos, an id that is missing", |c, a| early(c, a, FORM_PROTOS)),
    ("protos, an extern", |c, a| at_kind(c, a, FORM_PROTOS, 8) && kind(c, 0) == 7),
    ("protos, row 11", |c, a| at_kind(c, a, FORM_PROTOS, 11) && kind(c, 0) == 7),
    ("a word past the last row, else a fit", |c, a| {
        c.form <= FORM_PROTOS && !whole(c) && a.answer.get(1) == Some(&(rows(c) as u64))
    }),
    ("a word past the last row, a row before it", |c, a| {
        c.form <= FORM_PROTOS && !whole(c) && c.answer >= ANSWER && a.answer[1] < rows(c) as u64
    }),
    ("an expanded document with a marked url", |c, a| fits(c, a, FORM_EXPANDED) && marked(c) > 0),
    ("documents with marked urls", |c, a| fits(c, a, FORM_DOCUMENTS) && marked(c) > 0),
    ("a root sheet, a marked url", |c, a| at_kind(c, a, FORM_ROOT, URL) && marked(c) > 0),
    ("a library, a marked url", |c, a| at_kind(c, a, FORM_LIBRARY, URL) && marked(c) > 0),
    ("form 5", |c, a| c.form == 5 && a.result == 0 && c.answer >= ANSWER),
    ("form 4294967295", |c, a| c.form == u32::MAX && a.result == 0 && c.answer >= ANSWER),
    ("an answer of no word", |c, _| c.answer == 0),
    ("an answer of one word", |c, _| c.answer == 1),
    ("an answer of more than two words", |c, a| c.answer > ANSWER && a.result == 1),
];

/// Each shape, and whether a call has it.
pub fn shapes(call: &Call, after: &After, note: &mut dyn FnMut(&'static str, bool)) {
    SHAPES.iter().for_each(|(name, has)| note(name, has(call, after)));
}
