//! The pages, from the text of document 02: line by line into a list of lines. And the same broken on purpose.

use super::{before, byte_before, is, After, Call};
use crate::grammar;
use crate::tree::{Doc, Interface, Node, Origin, Statement};

/// The words of an answer: refusal, bytes.
pub const ANSWER: usize = 2;
/// What an answer of fewer words gives.
const SHORT_ANSWER: u32 = 29;
/// "A page has 60 lines of 72 bytes and a line end"
pub const LINES: usize = 60;
pub const LINE_BYTES: usize = 73;

#[derive(Clone, Copy, Debug, PartialEq, Eq)]
pub enum Mutant {
    SixtyNodes,
    PageFromZero,
    PageNumberLeft,
    NoneAsNumber,
    NoneAsZero,
    LastPageShort,
    EmptyPage,
    ScopeAndDocument,
    SourceAndType,
    TypeAndDef,
    IdFromOne,
    IdFromThePage,
    NumbersIn11,
    LeadingZeros,
    BlankLineEmpty,
    CarriageReturn,
    LedgerByRows,
    LongLedgerTaken,
    ShortLedgerTaken,
    RootTaken,
    HalfRowTaken,
    WorkUnasked,
    WorkPerNode,
    MalformedLast,
    OneByteMoreAsked,
    FewBytesFilled,
    BytesPastCleared,
    RefusalWrites,
    LinesCounted,
    NumbersOfARefusal,
    AnswerPastCleared,
    ShortAnswerWritten,
    ShortAnswerAfterTheRest,
}

/// Each with what it does wrong.
pub const MUTANTS: &[(Mutant, &str)] = &[
    (Mutant::SixtyNodes, "60 nodes to a page"),
    (Mutant::PageFromZero, "the page number from 0"),
    (Mutant::PageNumberLeft, "the page number to the left"),
    (Mutant::NoneAsNumber, "a DEF name of none printed"),
    (Mutant::NoneAsZero, "a DEF name of none printed as 0"),
    (Mutant::LastPageShort, "the last page not filled"),
    (Mutant::EmptyPage, "a page for no nodes"),
    (Mutant::ScopeAndDocument, "scope and document exchanged"),
    (Mutant::SourceAndType, "source id and type name exchanged"),
    (Mutant::TypeAndDef, "type name and DEF name exchanged"),
    (Mutant::IdFromOne, "node ids from 1"),
    (Mutant::IdFromThePage, "node ids counted on each page"),
    (Mutant::NumbersIn11, "numbers in 11 bytes and a space"),
    (Mutant::LeadingZeros, "numbers filled with zeros"),
    (Mutant::BlankLineEmpty, "a blank line of line ends alone"),
    (Mutant::CarriageReturn, "byte 13 for a line end"),
    (Mutant::LedgerByRows, "the ledger by rows, not by nodes"),
    (Mutant::LongLedgerTaken, "a ledger too long is taken"),
    (Mutant::ShortLedgerTaken, "a ledger too short is taken"),
    (Mutant::RootTaken, "a root sheet with prototypes is taken"),
    (Mutant::HalfRowTaken, "words past the last row are left alone"),
    (Mutant::WorkUnasked, "work too short is taken"),
    (Mutant::WorkPerNode, "work of 16 words a node is enough"),
    (Mutant::MalformedLast, "29 before 28"),
    (Mutant::OneByteMoreAsked, "one byte more than is written must be lent"),
    (Mutant::FewBytesFilled, "too few lent bytes are filled and accepted"),
    (Mutant::BytesPastCleared, "bytes past the pages are cleared"),
    (Mutant::RefusalWrites, "29 comes after the bytes that fit are written"),
    (Mutant::LinesCounted, "the lines are told, not the bytes"),
    (Mutant::NumbersOfARefusal, "on a refusal the word after the first stays"),
    (Mutant::AnswerPastCleared, "a third word of the answer is cleared"),
    (Mutant::ShortAnswerWritten, "a short answer gets the word that it has room for"),
    (Mutant::ShortAnswerAfterTheRest, "a short answer is looked at after the rest"),
];

/// "whose interfaces with an IS have class 0"
fn plain_interfaces(list: &[Interface]) -> bool {
    list.iter().all(|i| i.is.is_none() || i.value.is_none())
}

/// "An expanded document is a root sheet without kind 7, Proto statements or origin Proto, whose nodes hold only Route and
/// ExternProto statements and whose interfaces with an IS have class 0."
fn expanded(doc: &Doc) -> bool {
    let node = |n: &Node| {
        !matches!(n.origin, Origin::Proto(_))
            && n.statements.iter().all(|s| matches!(s, Statement::Route(_) | Statement::Extern(_)))
            && plain_interfaces(&n.interfaces)
    };
    doc.protos.is_empty()
        && doc.nodes.iter().all(node)
        && doc.externs.iter().all(|e| plain_interfaces(&e.interfaces))
        && !doc.top.iter().any(|s| matches!(s, Statement::Proto(_)))
}

/// The document, where it is not malformed.
pub fn document(call: &Call, mutant: Option<Mutant>) -> Option<Doc> {
    let rows = call.document.len() / 8;
    if call.document.len() % 8 != 0 && !is(mutant, Mutant::HalfRowTaken) {
        return None;
    }
    let doc = grammar::document(&call.document[..8 * rows], true).ok()?;
    if !expanded(&doc) && !is(mutant, Mutant::RootTaken) {
        return None;
    }
    let handed = if is(mutant, Mutant::WorkPerNode) { doc.nodes.len() } else { rows };
    if call.work < 16 * handed && !is(mutant, Mutant::WorkUnasked) {
        return None;
    }
    Some(doc)
}

/// A number right-justified in a width.
fn number(n: u32, width: usize, mutant: Option<Mutant>) -> String {
    match mutant {
        Some(Mutant::NumbersIn11) if width == 12 => format!("{n:>11} "),
        Some(Mutant::LeadingZeros) => format!("{n:0>width$}"),
        Some(Mutant::PageNumberLeft) if width == 72 => format!("{n:<72}"),
        _ => format!("{n:>width$}"),
    }
}

/// The line of a node.
fn line(id: usize, on_page: usize, node: &Node, ledger: &[u32], at: usize, mutant: Option<Mutant>) -> String {
    let word = |place: usize| ledger.get(3 * at + place).copied().unwrap_or(0);
    let id = match mutant {
        Some(Mutant::IdFromOne) => id + 1,
        Some(Mutant::IdFromThePage) => on_page,
        _ => id,
    };
    let mut numbers = [id as u32, word(0), word(1), word(2), node.type_name];
    match mutant {
        Some(Mutant::ScopeAndDocument) => numbers.swap(1, 2),
        Some(Mutant::SourceAndType) => numbers.swap(3, 4),
        _ => {}
    }
    let mut fields: Vec<String> = numbers.iter().map(|n| number(*n, 12, mutant)).collect();
    fields.push(match (node.def, mutant) {
        (Some(name), _) => number(name, 12, mutant),
        (None, Some(Mutant::NoneAsNumber)) => number(u32::MAX, 12, None),
        (None, Some(Mutant::NoneAsZero)) => number(0, 12, None),
        (None, _) => " ".repeat(12),
    });
    if is(mutant, Mutant::TypeAndDef) {
        fields.swap(4, 5);
    }
    fields.concat()
}

/// All pages.
fn pages(call: &Call, doc: &Doc, mutant: Option<Mutant>) -> Vec<u8> {
    let places = if is(mutant, Mutant::SixtyNodes) { LINES } else { LINES - 1 };
    let mut lines: Vec<String> = Vec::new();
    let rows: Vec<usize> = (0..call.document.len() / 8).filter(|r| call.document[8 * r] == 2).collect();
    let mut page = 0;
    let mut chunks: Vec<Vec<(usize, &Node)>> = Vec::new();
    for (id, node) in doc.nodes.iter().enumerate() {
        if id % places == 0 {
            chunks.push(Vec::new());
        }
        chunks.last_mut().expect("a page was begun").push((id, node));
    }
    if chunks.is_empty() && is(mutant, Mutant::EmptyPage) {
        chunks.push(Vec::new());
    }
    for chunk in &chunks {
        page += 1;
        lines.push(number(if is(mutant, Mutant::PageFromZero) { page - 1 } else { page }, 72, mutant));
        for (at, (id, node)) in chunk.iter().enumerate() {
            let entry = if is(mutant, Mutant::LedgerByRows) { rows[*id] } else { *id };
            lines.push(line(*id, at, node, &call.ledger, entry, mutant));
        }
        if !is(mutant, Mutant::LastPageShort) {
            let blank = if is(mutant, Mutant::BlankLineEmpty) { String::from("\n").repeat(72) } else { " ".repeat(72) };
            lines.resize(lines.len() + places - chunk.len(), blank);
        }
    }
    let end = if is(mutant, Mutant::CarriageReturn) { '\r' } else { '\n' };
    lines.iter().flat_map(|line| line.bytes().chain([end as u8])).collect()
}

/// The refusal, or the bytes.
fn outcome(call: &Call, mutant: Option<Mutant>) -> Result<Vec<u8>, u32> {
    let doc = document(call, mutant).filter(|doc| {
        let wanted = 3 * doc.nodes.len();
        match mutant {
            Some(Mutant::LongLedgerTaken) => call.ledger.len() >= wanted,
            Some(Mutant::ShortLedgerTaken) => call.ledger.len() <= wanted,
            _ => call.ledger.len() == wanted,
        }
    });
    let Some(doc) = doc else {
        let few = is(mutant, Mutant::MalformedLast) && call.text == 0;
        return Err(if few { 29 } else { 28 });
    };
    let bytes = pages(call, &doc, mutant);
    let needed = bytes.len() + is(mutant, Mutant::OneByteMoreAsked) as usize;
    if call.text < needed && !is(mutant, Mutant::FewBytesFilled) {
        return Err(29);
    }
    Ok(bytes)
}

/// Every byte and word after a call.
pub fn reckon(call: &Call, mutant: Option<Mutant>) -> After {
    let mut after = After {
        result: SHORT_ANSWER,
        text: (0..call.text).map(byte_before).collect(),
        answer: (0..call.answer).map(before).collect(),
    };
    let short = call.answer < ANSWER;
    if short && !is(mutant, Mutant::ShortAnswerAfterTheRest) && !is(mutant, Mutant::ShortAnswerWritten) {
        return after;
    }
    let outcome = outcome(call, mutant);
    if short {
        match outcome {
            Err(refusal) if is(mutant, Mutant::ShortAnswerAfterTheRest) => after.result = refusal,
            _ if is(mutant, Mutant::ShortAnswerWritten) => {
                after.answer.iter_mut().for_each(|word| *word = SHORT_ANSWER as u64)
            }
            _ => {}
        }
        return after;
    }
    let put = |text: &mut [u8], bytes: &[u8]| text.iter_mut().zip(bytes).for_each(|(to, byte)| *to = *byte);
    let words = match &outcome {
        Err(refusal) => {
            after.result = *refusal;
            if *refusal == 29 && is(mutant, Mutant::RefusalWrites) {
                put(&mut after.text, &pages(call, &document(call, None).expect("28 comes first"), None));
            }
            vec![*refusal as u64, 0]
        }
        Ok(bytes) => {
            after.result = 0;
            put(&mut after.text, bytes);
            if is(mutant, Mutant::BytesPastCleared) {
                after.text.iter_mut().skip(bytes.len()).for_each(|byte| *byte = 0);
            }
            let count = if is(mutant, Mutant::LinesCounted) { bytes.len() / LINE_BYTES } else { bytes.len() };
            vec![0, count as u64]
        }
    };
    let told = if is(mutant, Mutant::NumbersOfARefusal) && outcome.is_err() { 1 } else { ANSWER };
    after.answer.iter_mut().zip(&words[..told]).for_each(|(to, word)| *to = *word);
    if is(mutant, Mutant::AnswerPastCleared) {
        after.answer.iter_mut().skip(ANSWER).for_each(|word| *word = 0);
    }
    after
}
