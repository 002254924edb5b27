//! Whether a sheet fits a form and where it ceases to, from the text of documents 01 and 02. And the same broken on purpose.

use super::{before, After, Call};
use crate::grammar;
use crate::rows::*;

/// The words of an answer: 1 or 0, row.
pub const ANSWER: usize = 2;
/// The forms' numbers.
pub const FORM_ROOT: u32 = 0;
pub const FORM_LIBRARY: u32 = 1;
pub const FORM_EXPANDED: u32 = 2;
pub const FORM_DOCUMENTS: u32 = 3;
pub const FORM_PROTOS: u32 = 4;

#[derive(Clone, Copy, Debug, PartialEq, Eq)]
pub enum Mutant {
    RowWhereItFits,
    RowFromOne,
    HalfRowTaken,
    HalfRowFirst,
    HalfRowAfter,
    NoFormIsRoot,
    NoFormRowCount,
    FormsFromOne,
    ExpandedIsRoot,
    NodeStatementKept,
    OtherStatementKept,
    ProtoOriginKept,
    ProtoStatementKept,
    ValueBesideIs,
    OneDocument,
    NoDocumentRefused,
    DocumentsAreRoots,
    RowOfTheDocument,
    DocumentsAreFiles,
    NoProtoRefused,
    BodyTaken,
    ExternTaken,
    IdsOfProtosFree,
    OneProto,
    ResultIsRefusal,
    ShortAnswerWritten,
    ShortAnswerOne,
    AnswerPastCleared,
    RowUnwritten,
    MarkRefused,
    MarkInRoot,
    MarkInLibrary,
}

pub const MUTANTS: &[(Mutant, &str)] = &[
    (Mutant::RowWhereItFits, "the row count is told where the sheet fits"),
    (Mutant::RowFromOne, "rows count from 1"),
    (Mutant::HalfRowTaken, "words past the last row are let by"),
    (Mutant::HalfRowFirst, "words past the last row are told before a row that doesn't fit"),
    (Mutant::HalfRowAfter, "words past the last row are told as the row after them"),
    (Mutant::NoFormIsRoot, "a form that is none is taken for a root sheet"),
    (Mutant::NoFormRowCount, "the row count is told with a form that is none"),
    (Mutant::FormsFromOne, "forms count from 1"),
    (Mutant::ExpandedIsRoot, "an expanded document is a root sheet"),
    (Mutant::NodeStatementKept, "a Node statement in a node of an expanded document"),
    (Mutant::OtherStatementKept, "an 'other' statement in a node of an expanded document"),
    (Mutant::ProtoOriginKept, "a node of origin Proto in an expanded document"),
    (Mutant::ProtoStatementKept, "a Proto statement in an expanded document"),
    (Mutant::ValueBesideIs, "an IS and a value in an expanded document"),
    (Mutant::OneDocument, "one document after another is one too many"),
    (Mutant::NoDocumentRefused, "no document is too few"),
    (Mutant::DocumentsAreRoots, "documents one after another are root sheets"),
    (Mutant::RowOfTheDocument, "the row is counted from its document's"),
    (Mutant::DocumentsAreFiles, "documents one after another stand in files"),
    (Mutant::NoProtoRefused, "no proto is too few"),
    (Mutant::BodyTaken, "protos have body statements"),
    (Mutant::ExternTaken, "externs stand behind protos"),
    (Mutant::IdsOfProtosFree, "ids need no count in a sheet of protos"),
    (Mutant::OneProto, "one proto alone"),
    (Mutant::ResultIsRefusal, "the result is 0 where it fits"),
    (Mutant::ShortAnswerWritten, "a short answer is written"),
    (Mutant::ShortAnswerOne, "the result of a short answer is that of the check"),
    (Mutant::AnswerPastCleared, "words past the answer are cleared"),
    (Mutant::RowUnwritten, "the row stays as it was"),
    (Mutant::MarkRefused, "a marked url in an expanded document is refused"),
    (Mutant::MarkInRoot, "a marked url in a root sheet is let by"),
    (Mutant::MarkInLibrary, "a marked url in a library is let by"),
];

fn is(mutant: Option<Mutant>, one: Mutant) -> bool {
    mutant == Some(one)
}

/// "An expanded document is a root sheet without kind 7, Proto statements or origin Proto, whose nodes hold only Route and
/// ExternProto statements and whose interfaces with an IS have class 0": the first row against it.
fn not_expanded(rows: &[Row], mutant: Option<Mutant>) -> Option<usize> {
    let mut in_node = false;
    rows.iter().position(|r| {
        if matches!(r[0], DOCUMENT | NODE | PROTO | EXTERN | TOP) {
            in_node = r[0] == NODE;
        }
        match r[0] {
            PROTO => true,
            NODE => r[3] == 1 && !is(mutant, Mutant::ProtoOriginKept),
            STATEMENT if r[1] == 1 => !is(mutant, Mutant::ProtoStatementKept),
            STATEMENT if r[1] == 0 => in_node && !is(mutant, Mutant::NodeStatementKept),
            STATEMENT if r[1] == 4 => in_node && !is(mutant, Mutant::OtherStatementKept),
            INTERFACE => r[4] != NONE && r[6] != 0 && !is(mutant, Mutant::ValueBesideIs),
            _ => false,
        }
    })
}

/// The first row that doesn't fit an expanded document, or the row count where it ends early.
fn expanded(words: &[u32], mutant: Option<Mutant>) -> Option<usize> {
    let root = grammar::document(words, !is(mutant, Mutant::MarkRefused)).err();
    if is(mutant, Mutant::ExpandedIsRoot) {
        return root;
    }
    let other = not_expanded(&rows_of(words), mutant);
    [root, other].into_iter().flatten().min()
}

/// "Documents stand one after another in one sheet": each begins at a row of kind 1, and none is before the first.
fn documents(words: &[u32], mutant: Option<Mutant>) -> Option<usize> {
    let rows = rows_of(words);
    let starts: Vec<usize> = (0..rows.len()).filter(|at| rows[*at][0] == DOCUMENT).collect();
    if rows.is_empty() {
        return is(mutant, Mutant::NoDocumentRefused).then_some(0);
    }
    if starts.first() != Some(&0) {
        return Some(0);
    }
    for (number, start) in starts.iter().enumerate() {
        let end = starts.get(number + 1).copied().unwrap_or(rows.len());
        if is(mutant, Mutant::OneDocument) && number == 1 {
            return Some(*start);
        }
        let part = &words[8 * start..8 * end];
        let misfit =
            if is(mutant, Mutant::DocumentsAreRoots) { grammar::root(part).err() } else { expanded(part, mutant) };
        if let Some(row) = misfit {
            return Some(if is(mutant, Mutant::RowOfTheDocument) { row } else { start + row });
        }
    }
    None
}

/// "A proto is row 7, interfaces", and no body statements.
fn protos(words: &[u32], mutant: Option<Mutant>) -> Option<usize> {
    let name = |word: u32| word != NONE;
    let rows = rows_of(words);
    let zero = |columns: &[u32]| columns.iter().all(|w| *w == 0);
    let (mut inside, mut owed, mut body) = (false, 0, false);
    for (at, r) in rows.iter().enumerate() {
        let fits = match r[0] {
            ID if owed > 0 => {
                owed -= 1;
                name(r[1]) && zero(&r[2..])
            }
            ID if is(mutant, Mutant::IdsOfProtosFree) => inside,
            _ if owed > 0 => false,
            PROTO => {
                (inside, body) = (true, false);
                name(r[1]) && zero(&r[2..]) && !(is(mutant, Mutant::OneProto) && at > 0)
            }
            INTERFACE => {
                let value = match r[6] {
                    0 => r[5] == 0 && r[7] == 0,
                    1 | 2 => r[5] < TAGS,
                    _ => false,
                };
                if r[6] == 2 {
                    owed = r[7];
                }
                inside && !body && r[1] <= 3 && r[2] < TAGS && name(r[3]) && value
            }
            STATEMENT if is(mutant, Mutant::BodyTaken) => {
                body = true;
                inside && r[1] == 0 && name(r[2]) && zero(&r[3..])
            }
            EXTERN if is(mutant, Mutant::ExternTaken) => inside && name(r[1]) && zero(&r[2..]),
            _ => false,
        };
        if !fits {
            return Some(at);
        }
    }
    if rows.is_empty() && is(mutant, Mutant::NoProtoRefused) {
        return Some(0);
    }
    (owed > 0).then_some(rows.len())
}

/// The row that doesn't fit.
fn misfit(call: &Call, mutant: Option<Mutant>) -> Option<usize> {
    let rows = call.words.len() / 8;
    let whole = &call.words[..8 * rows];
    let form = match mutant {
        Some(Mutant::FormsFromOne) => call.form.wrapping_sub(1),
        Some(Mutant::NoFormIsRoot) if call.form > FORM_PROTOS => FORM_ROOT,
        _ => call.form,
    };
    let row = match form {
        FORM_ROOT => grammar::document(whole, is(mutant, Mutant::MarkInRoot)).err(),
        FORM_LIBRARY => grammar::files(whole, is(mutant, Mutant::MarkInLibrary)).err(),
        FORM_EXPANDED => expanded(whole, mutant),
        FORM_DOCUMENTS if is(mutant, Mutant::DocumentsAreFiles) => grammar::library(whole).err(),
        FORM_DOCUMENTS => documents(whole, mutant),
        FORM_PROTOS => protos(whole, mutant),
        _ if is(mutant, Mutant::NoFormRowCount) => Some(rows),
        _ => return Some(0),
    };
    if call.words.len() % 8 == 0 || is(mutant, Mutant::HalfRowTaken) {
        return row;
    }
    match mutant {
        Some(Mutant::HalfRowFirst) => Some(rows),
        Some(Mutant::HalfRowAfter) => row.or(Some(rows + 1)),
        _ => row.or(Some(rows)),
    }
}

/// Every word after a call.
pub fn reckon(call: &Call, mutant: Option<Mutant>) -> After {
    let mut answer: Vec<u64> = (0..call.answer).map(before).collect();
    let misfit = misfit(call, mutant);
    let fits = misfit.is_none() as u32;
    let result = if is(mutant, Mutant::ResultIsRefusal) { 1 - fits } else { fits };
    let row = match mutant {
        Some(Mutant::RowWhereItFits) => misfit.unwrap_or(call.words.len() / 8),
        Some(Mutant::RowFromOne) => misfit.map_or(0, |row| row + 1),
        _ => misfit.unwrap_or(0),
    };
    let words = [fits as u64, row as u64];
    if call.answer < ANSWER {
        if is(mutant, Mutant::ShortAnswerWritten) {
            answer.iter_mut().zip(words).for_each(|(to, word)| *to = word);
        }
        let result = if is(mutant, Mutant::ShortAnswerOne) { result } else { 0 };
        return After { result, answer };
    }
    answer[0] = words[0];
    if !is(mutant, Mutant::RowUnwritten) {
        answer[1] = words[1];
    }
    if is(mutant, Mutant::AnswerPastCleared) {
        answer[ANSWER..].fill(0);
    }
    After { result, answer }
}
