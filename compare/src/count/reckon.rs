//! The counts, from the text of document 02: sets and lists of what is mentioned. And the same broken on purpose.

use std::collections::{BTreeMap, BTreeSet};

use super::{before, is, After, Call};
use crate::grammar;
use crate::tree::{Binding, Doc, Interface, Node, Origin, Statement};

/// The words of an answer: refusal, totals.
pub const ANSWER: usize = 2;
/// What an answer of fewer words gives.
const SHORT_ANSWER: u32 = 17;
/// The most protocols, and the most names.
pub const MOST_PROTOCOLS: usize = 4096;
pub const MOST_NAMES: usize = 64;

#[derive(Clone, Copy, Debug, PartialEq, Eq)]
pub enum Mutant {
    Unreached,
    StartTwice,
    StartUnmentioned,
    OtherProtocol,
    LastProtocol,
    MarksLeft,
    ExtraRoots,
    Associations,
    RouteEnds,
    Nowhere,
    NowhereFirst,
    Fields,
    Interfaces,
    FirstField,
    MentionsOfAll,
    MentionOncePerNode,
    ProtocolsExchanged,
    TopOnly,
    LastDocument,
    TotalsKept,
    PerDocument,
    NamesSorted,
    DefNames,
    LowWord,
    ProtocolThree,
    ProtocolZero,
    ManyProtocols,
    ManyNames,
    NameTwice,
    FewTotals,
    FewerDocuments,
    MoreDocuments,
    EmptyRefused,
    RootTaken,
    HalfRowTaken,
    WorkUnasked,
    WorkPerDocument,
    MalformedFirst,
    RefusalWrites,
    TotalsPastCleared,
    DocumentsCounted,
    NumbersOfARefusal,
    AnswerPastCleared,
    ShortAnswerWritten,
    ShortAnswerAfterTheRest,
}

/// Each with what it does wrong.
pub const MUTANTS: &[(Mutant, &str)] = &[
    (Mutant::Unreached, "a node that is mentioned in one that is not reached counts"),
    (Mutant::StartTwice, "a top node counts twice"),
    (Mutant::StartUnmentioned, "a top statement is no mention"),
    (Mutant::OtherProtocol, "the protocol of the document before"),
    (Mutant::LastProtocol, "the last protocol for all"),
    (Mutant::MarksLeft, "a node whose id was reached in the document before is not reached again"),
    (Mutant::ExtraRoots, "extra roots are followed"),
    (Mutant::Associations, "associations are followed"),
    (Mutant::RouteEnds, "ends of top routes are followed"),
    (Mutant::Nowhere, "an id that leads nowhere counts for the last node's name"),
    (Mutant::NowhereFirst, "an id that leads nowhere counts for the first node's name"),
    (Mutant::Fields, "fields are not followed"),
    (Mutant::Interfaces, "interfaces are not followed"),
    (Mutant::FirstField, "the first field alone is followed"),
    (Mutant::MentionsOfAll, "mentions in nodes that are not reached count"),
    (Mutant::MentionOncePerNode, "two mentions in one node are one"),
    (Mutant::ProtocolsExchanged, "1 and 2 exchanged"),
    (Mutant::TopOnly, "only top nodes count"),
    (Mutant::LastDocument, "the totals are those of the last document"),
    (Mutant::TotalsKept, "the totals are added to what stood there"),
    (Mutant::PerDocument, "a node counts once over all documents, by its id"),
    (Mutant::NamesSorted, "the totals in the order of the names' numbers"),
    (Mutant::DefNames, "DEF names for type names"),
    (Mutant::LowWord, "totals of eight bits"),
    (Mutant::ProtocolThree, "protocol 3 is taken"),
    (Mutant::ProtocolZero, "protocol 0 is taken"),
    (Mutant::ManyProtocols, "over 4,096 protocols are taken"),
    (Mutant::ManyNames, "over 64 names are taken"),
    (Mutant::NameTwice, "a repeated name is taken"),
    (Mutant::FewTotals, "too few lent totals are filled"),
    (Mutant::FewerDocuments, "fewer documents than protocols are taken"),
    (Mutant::MoreDocuments, "more documents than protocols are taken"),
    (Mutant::EmptyRefused, "an empty sheet is refused"),
    (Mutant::RootTaken, "a sheet with prototypes is taken"),
    (Mutant::HalfRowTaken, "words past the last row are left alone"),
    (Mutant::WorkUnasked, "work too short is taken"),
    (Mutant::WorkPerDocument, "work for the largest document is enough"),
    (Mutant::MalformedFirst, "18 before 17"),
    (Mutant::RefusalWrites, "18 comes after the totals are cleared"),
    (Mutant::TotalsPastCleared, "totals past the names are cleared"),
    (Mutant::DocumentsCounted, "the documents are told, not the totals"),
    (Mutant::NumbersOfARefusal, "on a refusal the word after the first stays"),
    (Mutant::AnswerPastCleared, "a third word of the answer is cleared"),
    (Mutant::ShortAnswerWritten, "a short answer gets the word that it has room for"),
    (Mutant::ShortAnswerAfterTheRest, "a short answer is looked at after the rest"),
];

/// "whose interfaces with an IS have class 0"
fn plain_interfaces(list: &[Interface]) -> bool {
    list.iter().all(|i| i.is.is_none() || i.value.is_none())
}

/// "An expanded document is a root sheet without kind 7, Proto statements or origin Proto, whose nodes hold only Route and
/// ExternProto statements and whose interfaces with an IS have class 0." Its urls may be marked (wish 1).
fn expanded(doc: &Doc) -> bool {
    let node = |n: &Node| {
        !matches!(n.origin, Origin::Proto(_))
            && n.statements.iter().all(|s| matches!(s, Statement::Route(_) | Statement::Extern(_)))
            && plain_interfaces(&n.interfaces)
    };
    doc.protos.is_empty()
        && doc.nodes.iter().all(node)
        && doc.externs.iter().all(|e| plain_interfaces(&e.interfaces))
        && !doc.top.iter().any(|s| matches!(s, Statement::Proto(_)))
}

/// The documents of a sheet, each from a row of kind 1 up to the next; none where one is malformed.
pub fn documents(words: &[u32], mutant: Option<Mutant>) -> Option<Vec<Doc>> {
    let rows = words.len() / 8;
    if words.len() % 8 != 0 && !is(mutant, Mutant::HalfRowTaken) {
        return None;
    }
    let mut begins: Vec<usize> = (0..rows).filter(|row| words[8 * row] == 1).collect();
    if rows > 0 && begins.first() != Some(&0) {
        return None;
    }
    begins.push(rows);
    begins
        .windows(2)
        .map(|span| grammar::document(&words[8 * span[0]..8 * span[1]], true).ok())
        .map(|doc| doc.filter(|doc| expanded(doc) || is(mutant, Mutant::RootTaken)))
        .collect()
}

/// "each id in a value" of a node: fields, then interfaces.
fn ids(node: &Node, mutant: Option<Mutant>) -> Vec<u32> {
    let fields = node.fields.iter().filter_map(|f| match &f.binding {
        Binding::Value(value) => Some(value.ids()),
        Binding::Is(_) => None,
    });
    let fields: Vec<&[u32]> = match mutant {
        Some(Mutant::Fields) => Vec::new(),
        Some(Mutant::FirstField) => fields.take(1).collect(),
        _ => fields.collect(),
    };
    let interfaces = node.interfaces.iter().filter_map(|i| i.value.as_ref()).map(|value| value.ids());
    let interfaces: Vec<&[u32]> = if is(mutant, Mutant::Interfaces) { Vec::new() } else { interfaces.collect() };
    let mut all = fields.concat();
    all.extend(interfaces.concat());
    if let Some(record) = &node.instance {
        match mutant {
            Some(Mutant::ExtraRoots) => all.extend(&record.roots),
            Some(Mutant::Associations) => all.extend(record.associations.iter().map(|a| a[1])),
            _ => {}
        }
    }
    if is(mutant, Mutant::MentionOncePerNode) {
        let mut once = BTreeSet::new();
        all.retain(|id| once.insert(*id));
    }
    all
}

/// "top Node statements"
pub fn starts(doc: &Doc) -> Vec<u32> {
    doc.top.iter().filter_map(|s| if let Statement::Node(id) = s { Some(*id) } else { None }).collect()
}

/// "Reached here starts at top Node statements and follows field and interface values."
pub fn reached(doc: &Doc, mutant: Option<Mutant>) -> BTreeSet<u32> {
    let mut open = starts(doc);
    if is(mutant, Mutant::RouteEnds) {
        for s in &doc.top {
            if let Statement::Route(route) = s {
                open.extend(route.from.iter().chain(&route.to));
            }
        }
    }
    if is(mutant, Mutant::Unreached) {
        open.extend(doc.nodes.iter().flat_map(|node| ids(node, None)));
    }
    let mut reached = BTreeSet::new();
    while let Some(id) = open.pop() {
        if (id as usize) < doc.nodes.len() && reached.insert(id) && !is(mutant, Mutant::TopOnly) {
            open.extend(ids(&doc.nodes[id as usize], mutant));
        }
    }
    reached
}

/// The ids that count under a protocol.
fn counted(doc: &Doc, protocol: u32, mutant: Option<Mutant>) -> Vec<u32> {
    let reached = reached(doc, mutant);
    let protocol = if is(mutant, Mutant::ProtocolsExchanged) { 3 - protocol.min(3) } else { protocol };
    if protocol != 1 {
        let mut all: Vec<u32> = reached.into_iter().collect();
        if is(mutant, Mutant::StartTwice) {
            all.extend(starts(doc).first());
        }
        return all;
    }
    let mut all = if is(mutant, Mutant::StartUnmentioned) { Vec::new() } else { starts(doc) };
    if is(mutant, Mutant::StartTwice) {
        all.extend(starts(doc).first());
    }
    for (id, node) in doc.nodes.iter().enumerate() {
        if reached.contains(&(id as u32)) || is(mutant, Mutant::MentionsOfAll) {
            all.extend(ids(node, mutant));
        }
    }
    all
}

/// The total of each type name.
fn totals(call: &Call, docs: &[Doc], mutant: Option<Mutant>) -> BTreeMap<u32, u64> {
    let mut totals: BTreeMap<u32, u64> = BTreeMap::new();
    let mut seen: BTreeSet<u32> = BTreeSet::new();
    for (place, doc) in docs.iter().enumerate() {
        let protocol = match mutant {
            Some(Mutant::OtherProtocol) => call.protocols.get(place.saturating_sub(1)),
            Some(Mutant::LastProtocol) => call.protocols.last(),
            _ => call.protocols.get(place),
        };
        if is(mutant, Mutant::LastDocument) {
            totals.clear();
        }
        let mut ids = counted(doc, protocol.copied().unwrap_or(1), mutant);
        if is(mutant, Mutant::MarksLeft) {
            ids.retain(|id| !seen.contains(id));
            seen = reached(doc, None);
        }
        if is(mutant, Mutant::PerDocument) {
            ids.retain(|id| !seen.contains(id));
            seen.extend(&ids);
        }
        for id in ids {
            let node = doc.nodes.get(id as usize).or(match mutant {
                Some(Mutant::Nowhere) => doc.nodes.last(),
                Some(Mutant::NowhereFirst) => doc.nodes.first(),
                _ => None,
            });
            if let Some(node) = node {
                let name = if is(mutant, Mutant::DefNames) { node.def.unwrap_or(u32::MAX) } else { node.type_name };
                *totals.entry(name).or_default() += 1;
            }
        }
    }
    totals
}

/// Whether a list is wrong: 17.
fn wrong(call: &Call, mutant: Option<Mutant>) -> bool {
    let protocol = |p: &u32| {
        *p == 1
            || *p == 2
            || *p == 3 && is(mutant, Mutant::ProtocolThree)
            || *p == 0 && is(mutant, Mutant::ProtocolZero)
    };
    let once: BTreeSet<&u32> = call.names.iter().collect();
    !call.protocols.iter().all(protocol)
        || call.protocols.len() > MOST_PROTOCOLS && !is(mutant, Mutant::ManyProtocols)
        || once.len() < call.names.len() && !is(mutant, Mutant::NameTwice)
        || call.names.len() > MOST_NAMES && !is(mutant, Mutant::ManyNames)
        || call.totals < call.names.len() && !is(mutant, Mutant::FewTotals)
}

/// The documents, where they are not malformed and as many as the protocols.
pub fn well(call: &Call, mutant: Option<Mutant>) -> Option<Vec<Doc>> {
    let docs = documents(&call.documents, mutant)?;
    let rows = call.documents.len() / 8;
    let asked = if is(mutant, Mutant::WorkPerDocument) {
        let begins: Vec<usize> = (0..rows).filter(|row| call.documents[8 * row] == 1).chain([rows]).collect();
        begins.windows(2).map(|span| span[1] - span[0]).max().unwrap_or(0)
    } else {
        rows
    };
    let enough = call.work / 16 >= asked || is(mutant, Mutant::WorkUnasked);
    let many = match mutant {
        Some(Mutant::FewerDocuments) => docs.len() <= call.protocols.len(),
        Some(Mutant::MoreDocuments) => docs.len() >= call.protocols.len(),
        Some(Mutant::EmptyRefused) => docs.len() == call.protocols.len() && !docs.is_empty(),
        _ => docs.len() == call.protocols.len(),
    };
    (enough && many).then_some(docs)
}

/// The refusal, or the total of each name.
fn outcome(call: &Call, mutant: Option<Mutant>) -> Result<Vec<u64>, u32> {
    let docs = well(call, mutant);
    if docs.is_none() && is(mutant, Mutant::MalformedFirst) {
        return Err(18);
    }
    if wrong(call, mutant) {
        return Err(17);
    }
    let docs = docs.ok_or(18u32)?;
    let totals = totals(call, &docs, mutant);
    let mut names = call.names.clone();
    if is(mutant, Mutant::NamesSorted) {
        names.sort_unstable();
    }
    let mask = if is(mutant, Mutant::LowWord) { 255 } else { u64::MAX };
    Ok(names.iter().map(|name| totals.get(name).copied().unwrap_or(0) & mask).collect())
}

/// Every word after a call.
pub fn reckon(call: &Call, mutant: Option<Mutant>) -> After {
    let mut after = After {
        result: SHORT_ANSWER,
        totals: (0..call.totals).map(before).collect(),
        answer: (0..call.answer).map(before).collect(),
    };
    let short = call.answer < ANSWER;
    if short && !is(mutant, Mutant::ShortAnswerAfterTheRest) && !is(mutant, Mutant::ShortAnswerWritten) {
        return after;
    }
    let outcome = outcome(call, mutant);
    if short {
        match outcome {
            Err(refusal) if is(mutant, Mutant::ShortAnswerAfterTheRest) => after.result = refusal,
            _ if is(mutant, Mutant::ShortAnswerWritten) => {
                after.answer.iter_mut().for_each(|word| *word = SHORT_ANSWER as u64)
            }
            _ => {}
        }
        return after;
    }
    let words = match &outcome {
        Err(refusal) => {
            after.result = *refusal;
            if *refusal == 18 && is(mutant, Mutant::RefusalWrites) {
                after.totals.iter_mut().take(call.names.len()).for_each(|word| *word = 0);
            }
            vec![*refusal as u64, 0]
        }
        Ok(totals) => {
            after.result = 0;
            let kept = is(mutant, Mutant::TotalsKept);
            after.totals.iter_mut().zip(totals).for_each(|(to, total)| *to = *total + if kept { *to } else { 0 });
            if is(mutant, Mutant::TotalsPastCleared) {
                after.totals.iter_mut().skip(totals.len()).for_each(|word| *word = 0);
            }
            let told = if is(mutant, Mutant::DocumentsCounted) { call.protocols.len() } else { totals.len() };
            vec![0, told as u64]
        }
    };
    let told = if is(mutant, Mutant::NumbersOfARefusal) && outcome.is_err() { 1 } else { ANSWER };
    after.answer.iter_mut().zip(&words[..told]).for_each(|(to, word)| *to = *word);
    if is(mutant, Mutant::AnswerPastCleared) {
        after.answer.iter_mut().skip(ANSWER).for_each(|word| *word = 0);
    }
    after
}
