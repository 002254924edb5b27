//! What a run's scenes contained, so that nothing that must be tried is missing without notice.

use std::collections::{HashMap, HashSet};

use crate::call::{Call, Expanded};
use crate::mutants::Mutant;
use crate::picks::{choose, picks, Picks, MOST_BASES};
use crate::reckon::{self, Reckoned};
use crate::rows::*;
use crate::scenes::MOST_CHARGES;
use crate::tree::*;
use crate::{closure, grammar};

/// What must be met at least once, by name.
const SHAPES: [&str; 82] = [
    "a node mentioned twice",
    "a loop through an instance's fields",
    "a default with nodes",
    "a default without nodes",
    "an instance as a body's root",
    "  with roots of its own",
    "  with routes of its own",
    "an IS chain",
    "an IS to nothing, no default declared",
    "an IS to nothing takes a default in a body",
    "  at the top",
    "  in a default scope",
    "  of an interface name declared twice, each entry's own",
    "  and not in another scope, where the target has a value",
    "an IS outside bodies, kept",
    "a field name given twice",
    "an interface name declared twice",
    "marks past the end",
    "a pick by a fragment",
    "a pick without one",
    "an extern without a pick",
    "a body of the last of two files of one base",
    "a body of the last of three files of one base",
    "  with a file of another base between them",
    "no pick by the last file of a base, one by an older file of it",
    "more than 64 bases",
    "an input record, dropped",
    "a route end that becomes none",
    "a dangling node id, not met",
    "a dangling PROTO id, not met",
    "a dangling extern id, not met",
    "a dangling node id in a file, not met",
    "5 in the root",
    "5 in a file",
    "6 in the root",
    "6 in a file",
    "4 in the root",
    "4 in a file",
    "7 in the root",
    "7 in a file",
    "3 in the root",
    "3 in the library",
    "3 where a sheet ends early",
    "9 with every D, by a default that an IS to nothing takes",
    "a mark by a top statement",
    "a mark by a statement in a node",
    "a mark by a body's statement",
    "a mark on a url that is not the first",
    "a mark behind another url of its base",
    "an extern declared without a mark",
    "3 at a marked url",
    "an instance of a file's extern",
    "  that takes a default",
    "  with a field bound by IS that has a value",
    "  as a body's root",
    "a chain of three files, each opened by the one before",
    "a file that a file and the root name",
    "a file that two files name",
    "an ExternProto node of a file without a pick, kept",
    "equal extern ids of two documents with other picks",
    "a file fetched without a pick, with externs",
    "  without whose bases other files are found",
    "a file that nothing fetches, with externs",
    "  with whose bases other files are found",
    "the last of two files of one base by a file's extern, with externs",
    "63 bases over root and files",
    "64 bases over root and files, none passed over",
    "a 65th base, passed over in a file",
    "  where no base of the root is passed over",
    "another answer depth first",
    "another answer where a file is walked at once",
    "another answer in the library's order",
    "a mark in a file, by a body's statement",
    "a mark in a file, by a statement in a node",
    "  of a file",
    "6 by a file's extern",
    "a circle of files, accepted",
    "9 with every D, round a file that names itself",
    "9 with every D, round a circle of two files",
    "9 with every D, round a circle of three files",
    "8 round a circle of files",
    "10 round a circle of files",
];

/// Counts of calls by shape.
pub struct Coverage {
    counts: [u64; SHAPES.len()],
}

impl Default for Coverage {
    fn default() -> Coverage {
        Coverage { counts: [0; SHAPES.len()] }
    }
}

impl Coverage {
    /// One call and what is reckoned of it.
    pub fn note(&mut self, call: &Call, reckoned: &Reckoned) {
        let mut seen = HashSet::new();
        match &reckoned.answer {
            Ok(expanded) => {
                let (Ok(root), Ok(files)) = (grammar::root(&call.root), grammar::library(&call.library)) else {
                    return;
                };
                Sheets::new(&root, &files).accepted(call, expanded, &mut seen);
                seen.extend(reckoned.noted.iter());
                if !reckoned.bound.unset.is_disjoint(&reckoned.bound.valued) {
                    seen.insert("  and not in another scope, where the target has a value");
                }
            }
            Err(refusal) => {
                let [first, second] = refusal.places;
                let rows = [&call.root, &call.library][(first == 1) as usize].len() / 8;
                match refusal.number {
                    3 => {
                        seen.insert(if first == 0 { "3 in the root" } else { "3 in the library" });
                        let sheet = [&call.root, &call.library][(first == 1) as usize];
                        if matches!(sheet.chunks_exact(8).nth(second as usize), Some([URL, _, _, 1, 0, 0, 0, 0])) {
                            seen.insert("3 at a marked url");
                        }
                        if second as usize == rows {
                            seen.insert("3 where a sheet ends early");
                        }
                    }
                    4..=7 => {
                        let name = format!("{} in {}", refusal.number, if first == 0 { "the root" } else { "a file" });
                        seen.extend(SHAPES.iter().find(|shape| **shape == name));
                    }
                    _ => {}
                }
                if refusal.number == 9 && reckoned.bound.takes_default() && endless_by_is(call) {
                    seen.insert("9 with every D, by a default that an IS to nothing takes");
                }
                if reckoned.linked && matches!(refusal.number, 6 | 8..=10) {
                    let (Ok(root), Ok(files)) = (grammar::root(&call.root), grammar::library(&call.library)) else {
                        return;
                    };
                    Sheets::new(&root, &files).refused(call, refusal.number, &mut seen);
                }
            }
        }
        for (name, count) in SHAPES.iter().zip(&mut self.counts) {
            *count += seen.contains(name) as u64;
        }
    }

    /// The counts, printed; the number of shapes that were not met.
    pub fn print(&self) -> u64 {
        for (name, count) in SHAPES.iter().zip(self.counts) {
            println!("  {name}: {count}");
        }
        let missing = self.counts.iter().filter(|c| **c == 0).count() as u64;
        println!("{} shapes, {missing} not met", SHAPES.len());
        missing
    }
}

/// Whether the cap of D is passed too, and the call is accepted where an IS to nothing takes no default.
fn endless_by_is(call: &Call) -> bool {
    let deep = Call::new(call.root.clone(), call.library.clone(), call.max_nodes, 512, MOST_CHARGES);
    let nine = matches!(reckon::expand(&deep, None), Err(r) if r.number == 9);
    nine && reckon::expand(call, Some(Mutant::IsToNothingTakesNone)).is_ok()
}

/// Nodes enough for a circle of files 512 deep that does not branch.
const MOST_DEEP: u32 = 4000;

struct Sheets<'a> {
    docs: Vec<&'a Doc>,
    files: &'a [File],
    picks: Picks,
}

type Seen = HashSet<&'static str>;

impl<'a> Sheets<'a> {
    fn new(root: &'a Doc, files: &'a [File]) -> Sheets<'a> {
        let docs = std::iter::once(root).chain(files.iter().map(|f| &f.doc)).collect();
        Sheets { docs, files, picks: picks(root, files, None) }
    }

    fn prototype(&self, document: usize, node: &Node) -> Option<&'a Proto> {
        let (document, id) = match node.origin {
            Origin::Proto(id) => (document, id),
            Origin::Extern(id) => self.picks.get(document, id)?.prototype(),
            _ => return None,
        };
        self.docs[document].protos.get(id as usize)
    }

    fn accepted(&self, call: &Call, answer: &Expanded, seen: &mut Seen) {
        self.output(answer, seen);
        if closure::check(call, answer).is_ok_and(|s| s.loops) {
            seen.insert("a loop through an instance's fields");
        }
        for [_, document, id] in &answer.ledger {
            let node = &self.docs[*document as usize].nodes[*id as usize];
            let marks = |kind: u32| node.order.iter().filter(|m| **m == kind).count();
            if marks(MARK_FIELD) > node.fields.len() || marks(MARK_STATEMENT) > node.statements.len() {
                seen.insert("marks past the end");
            }
            if node.instance.is_some() {
                seen.insert("an input record, dropped");
            }
        }
        self.scopes(answer, seen);
        self.externs(seen);
        self.dangling(seen);
        self.linked(call, answer, seen);
    }

    /// A refusal where files declare externs: circles without end, and 6 by a pick.
    fn refused(&self, call: &Call, number: u32, seen: &mut Seen) {
        // The same call is accepted where externs of files are not followed.
        if reckon::expand(call, Some(Mutant::FilesExternsPlain)).is_err() {
            return;
        }
        let circle = self.circles().into_iter().min();
        match (number, circle) {
            (6, _) => drop(seen.insert("6 by a file's extern")),
            (8, Some(_)) => drop(seen.insert("8 round a circle of files")),
            (10, Some(_)) => drop(seen.insert("10 round a circle of files")),
            (9, Some(length)) => {
                let deep = Call::new(call.root.clone(), call.library.clone(), MOST_DEEP, 512, MOST_CHARGES);
                if matches!(reckon::expand(&deep, None), Err(r) if r.number == 9) {
                    seen.insert(match length {
                        1 => "9 with every D, round a file that names itself",
                        2 => "9 with every D, round a circle of two files",
                        _ => "9 with every D, round a circle of three files",
                    });
                }
            }
            _ => {}
        }
    }

    /// The documents that the nodes of a document lead to.
    fn leads_to(&self, document: usize) -> HashSet<usize> {
        let nodes = self.docs[document].nodes.iter();
        nodes
            .filter_map(|n| if let Origin::Extern(id) = n.origin { self.picks.get(document, id) } else { None })
            .map(|pick| pick.document)
            .collect()
    }

    /// The lengths of the shortest circles through each document.
    fn circles(&self) -> Vec<usize> {
        let mut lengths = Vec::new();
        for start in self.picks.fetched.iter().copied() {
            let mut reached = self.leads_to(start);
            for length in 1..=self.docs.len() {
                if reached.contains(&start) {
                    lengths.push(length);
                    break;
                }
                let next: HashSet<usize> = reached.iter().flat_map(|d| self.leads_to(*d)).collect();
                reached.extend(next);
            }
        }
        lengths
    }

    /// What an accepted call has of externs in files (document 02, wish 12).
    fn linked(&self, call: &Call, answer: &Expanded, seen: &mut Seen) {
        let declares = |document: usize| !self.docs[document].externs.is_empty();
        if !(1..self.docs.len()).any(declares) {
            return;
        }
        self.instances_of_files(answer, seen);
        if !self.circles().is_empty() {
            seen.insert("a circle of files, accepted");
        }
        for [_, document, id] in answer.ledger.iter().filter(|entry| entry[1] > 0) {
            if let Origin::Extern(_) = self.docs[*document as usize].nodes[*id as usize].origin {
                seen.insert("an ExternProto node of a file without a pick, kept");
            }
        }
        let walked: Vec<usize> = std::iter::once(0).chain(self.picks.fetched.iter().copied()).collect();
        let picks_of = |document: usize| {
            let count = self.docs[document].externs.len() as u32;
            (0..count).filter_map(move |id| self.picks.get(document, id).map(|pick| (id, pick)))
        };
        let picked: Vec<(usize, u32, usize)> =
            walked.iter().flat_map(|d| picks_of(*d).map(|(id, pick)| (*d, id, pick.document))).collect();
        for (at, (document, id, to)) in picked.iter().enumerate() {
            for (other, other_id, other_to) in &picked[..at] {
                if other != document && to == other_to {
                    seen.insert(match other {
                        0 => "a file that a file and the root name",
                        _ => "a file that two files name",
                    });
                }
                if other != document && id == other_id && to != other_to {
                    seen.insert("equal extern ids of two documents with other picks");
                }
            }
            let of_base = |at: &usize| self.files[*at].base == self.files[to - 1].base;
            if *document > 0 && declares(*to) && (0..to - 1).any(|at| of_base(&at)) {
                seen.insert("the last of two files of one base by a file's extern, with externs");
            }
        }
        for document in (1..self.docs.len()).filter(|d| declares(*d)) {
            if !walked.contains(&document) {
                seen.insert("a file that nothing fetches, with externs");
            } else if !picked.iter().any(|(_, _, to)| *to == document) {
                seen.insert("a file fetched without a pick, with externs");
            }
        }
        self.table(call, answer, seen);
    }

    /// Instances of a file's extern, by the scopes that they open.
    fn instances_of_files(&self, answer: &Expanded, seen: &mut Seen) {
        let origin = |scope: usize| {
            let opener = answer.scopes[answer.scopes[scope][4] as usize];
            let document = opener[1] as usize;
            (document, opener, &self.docs[document].nodes[answer.instances[scope] as usize])
        };
        for scope in 1..answer.scopes.len() {
            let (document, opener, node) = origin(scope);
            let Origin::Extern(_) = node.origin else { continue };
            if document == 0 {
                continue;
            }
            seen.insert("an instance of a file's extern");
            if answer.scopes[scope][0] == 2 {
                seen.insert("  that takes a default");
                continue;
            }
            let body = || &self.docs[document].protos[opener[2] as usize].body;
            if opener[0] == 1
                && body().iter().find(|s| matches!(s, Statement::Node(_)))
                    == Some(&Statement::Node(answer.instances[scope]))
            {
                seen.insert("  as a body's root");
            }
            let [_, inner, proto, ..] = answer.scopes[scope].map(|n| n as usize);
            let interfaces = &self.docs[inner].protos[proto].interfaces;
            let bound = |f: &Field| matches!(f.binding, Binding::Is(_)) && interfaces.iter().any(|i| i.name == f.name);
            // Its target has a value where no default is taken for it.
            let index = |name: u32| interfaces.iter().position(|i| i.name == name).unwrap() as u32;
            for field in node.fields.iter().filter(|f| bound(f)) {
                let entry = [2, inner as u32, proto as u32, index(field.name), answer.scopes[scope][4]];
                if interfaces[index(field.name) as usize].value.is_some() && !answer.scopes.contains(&entry) {
                    seen.insert("  with a field bound by IS that has a value");
                }
            }
            let before = answer.scopes[scope][4] as usize;
            let (outer, _, around) = origin(before);
            let another = HashSet::from([outer, document, inner]).len() == 3 && outer > 0;
            if opener[0] == 1 && another && matches!(around.origin, Origin::Extern(_)) {
                seen.insert("a chain of three files, each opened by the one before");
            }
        }
    }

    /// The table of bases over root and files.
    fn table(&self, call: &Call, answer: &Expanded, seen: &mut Seen) {
        let by_files = self.docs[1..].iter().any(|d| !d.externs.is_empty());
        let (bases, passed) = (self.picks.bases.len(), &self.picks.passed_over);
        if !by_files || bases + 1 < MOST_BASES {
            return;
        }
        if bases + 1 == MOST_BASES {
            seen.insert("63 bases over root and files");
        } else if passed.is_empty() {
            seen.insert("64 bases over root and files, none passed over");
        }
        if passed.iter().any(|document| *document > 0) {
            seen.insert("a 65th base, passed over in a file");
            if !passed.contains(&0) {
                seen.insert("  where no base of the root is passed over");
            }
        }
        let mutants = [
            (Mutant::FetchedDepthFirst, "another answer depth first"),
            (Mutant::FetchedAtOnce, "another answer where a file is walked at once"),
            (Mutant::FetchedInLibraryOrder, "another answer in the library's order"),
            (Mutant::FileWithoutPickPassedOver, "  without whose bases other files are found"),
            (Mutant::UnfetchedFilesWalked, "  with whose bases other files are found"),
        ];
        for (mutant, shape) in mutants {
            if reckon::expand(call, Some(mutant)).as_ref() != Ok(answer) {
                seen.insert(shape);
            }
        }
    }

    fn output(&self, answer: &Expanded, seen: &mut Seen) {
        let mut mentions: HashMap<u32, u32> = HashMap::new();
        let mut inside = 0;
        for row in &answer.out {
            if inside > 0 {
                inside -= 1;
                continue;
            }
            match *row {
                [INSTANCE, _, b, c, d, ..] => inside = b + c + d,
                [ID, id, ..] | [STATEMENT, 0, id, ..] => *mentions.entry(id).or_default() += 1,
                [FIELD, _, 1, ..] => drop(seen.insert("an IS outside bodies, kept")),
                _ => {}
            }
        }
        if mentions.values().any(|count| *count > 1) {
            seen.insert("a node mentioned twice");
        }
        let ended = |rows: &mut dyn Iterator<Item = &Row>| {
            rows.filter(|r| matches!(r, [STATEMENT, 3, ..])).filter(|r| r[6] == NONE || r[7] == NONE).count()
        };
        let before: usize = ended(&mut rows_of(&print(self.docs[0]).concat()).iter());
        if ended(&mut answer.out.iter()) > before {
            seen.insert("a route end that becomes none");
        }
    }

    /// The scopes, with the names that each body scope has a value for.
    fn scopes(&self, answer: &Expanded, seen: &mut Seen) {
        let mut named: Vec<HashSet<u32>> = Vec::new();
        for (entry, instance) in answer.scopes.iter().zip(&answer.instances) {
            let [kind, document, proto, index, opener] = entry.map(|n| n as usize);
            let mut names = HashSet::new();
            if kind > 0 {
                let declared = &self.docs[document].protos[proto];
                if kind == 2 {
                    let empty = declared.interfaces[index].value.as_ref().is_none_or(|v| v.ids().is_empty());
                    seen.insert(if empty { "a default without nodes" } else { "a default with nodes" });
                } else {
                    let node = &self.docs[answer.scopes[opener][1] as usize].nodes[*instance as usize];
                    names = self.values(node, declared, &named[opener], answer.scopes[opener][0], seen);
                    self.body(document, declared, seen);
                    self.file(document, seen);
                }
            }
            named.push(names);
        }
    }

    /// The names that an instance has a value for, in a scope of this kind where the outer names have one.
    fn values(&self, node: &Node, proto: &Proto, outer: &HashSet<u32>, kind: u32, seen: &mut Seen) -> HashSet<u32> {
        let mut names = HashSet::new();
        let has_default = |i: &&Interface| i.value.is_some();
        for (at, interface) in proto.interfaces.iter().enumerate() {
            if proto.interfaces[..at].iter().any(|i| i.name == interface.name) {
                seen.insert("an interface name declared twice");
            }
            let mut equal = node.fields.iter().filter(|f| f.name == interface.name);
            let last = equal.next_back();
            if equal.next().is_some() {
                seen.insert("a field name given twice");
            }
            let has = match last.map(|f| &f.binding) {
                Some(Binding::Value(_)) => true,
                Some(Binding::Is(target)) if outer.contains(target) => {
                    seen.insert("an IS chain");
                    true
                }
                Some(Binding::Is(_)) => {
                    let equal = proto.interfaces.iter().filter(|i| i.name == interface.name);
                    if equal.filter(has_default).count() > 1 {
                        seen.insert("  of an interface name declared twice, each entry's own");
                    }
                    seen.insert(match (interface.value.is_some(), kind) {
                        (false, _) => "an IS to nothing, no default declared",
                        (true, 0) => "  at the top",
                        (true, 1) => "an IS to nothing takes a default in a body",
                        (true, _) => "  in a default scope",
                    });
                    interface.value.is_some()
                }
                None => interface.value.is_some(),
            };
            if has {
                names.insert(interface.name);
            }
        }
        names
    }

    /// A body whose root is an instance.
    fn body(&self, document: usize, proto: &Proto, seen: &mut Seen) {
        let first = proto.body.iter().find_map(|s| if let Statement::Node(id) = s { Some(*id) } else { None });
        let root = first.and_then(|id| self.docs[document].nodes.get(id as usize));
        let Some(inner) = root.and_then(|node| self.prototype(document, node)) else { return };
        seen.insert("an instance as a body's root");
        if inner.body.iter().filter(|s| matches!(s, Statement::Node(_))).count() > 1 {
            seen.insert("  with roots of its own");
        }
        if inner.body.iter().any(|s| matches!(s, Statement::Route(_))) {
            seen.insert("  with routes of its own");
        }
    }

    /// A body's document, where it is a file among several of its base.
    fn file(&self, document: usize, seen: &mut Seen) {
        let Some(at) = document.checked_sub(1) else { return };
        let of_base = |f: &&File| f.base == self.files[at].base;
        if self.files[at + 1..].iter().any(|f| of_base(&f)) {
            return;
        }
        let count = self.files.iter().filter(of_base).count();
        if count == 2 {
            seen.insert("a body of the last of two files of one base");
        }
        if count > 2 {
            seen.insert("a body of the last of three files of one base");
            if self.files[..at].iter().skip_while(|f| !of_base(f)).any(|f| !of_base(&f)) {
                seen.insert("  with a file of another base between them");
            }
        }
    }

    fn externs(&self, seen: &mut Seen) {
        let mut bases = HashSet::new();
        let gives = |f: &&File, fragment: Option<u32>| choose(&f.doc, fragment, false).is_some();
        for (base, fragment) in self.docs[0].externs.iter().flat_map(|declared| &declared.urls) {
            let mut of_base = self.files.iter().filter(|f| f.base == *base).rev();
            if of_base.next().is_some_and(|f| !gives(&f, *fragment)) && of_base.any(|f| gives(&f, *fragment)) {
                seen.insert("no pick by the last file of a base, one by an older file of it");
            }
        }
        for (id, declared) in self.docs[0].externs.iter().enumerate() {
            bases.extend(declared.urls.iter().map(|(base, _)| *base));
            let Some(pick) = self.picks.get(0, id as u32) else {
                seen.insert("an extern without a pick");
                continue;
            };
            let by_fragment = declared.urls[pick.url].1.is_some();
            seen.insert(if by_fragment { "a pick by a fragment" } else { "a pick without one" });
        }
        if bases.len() > MOST_BASES {
            seen.insert("more than 64 bases");
        }
    }

    /// Ids beyond their group in an accepted scene: nothing met them.
    fn dangling(&self, seen: &mut Seen) {
        for (number, doc) in self.docs.iter().enumerate() {
            let mut rows = print(doc).into_iter();
            let (nodes, protos, externs) = (doc.nodes.len() as u32, doc.protos.len() as u32, doc.externs.len() as u32);
            let found: HashSet<&str> = rows
                .by_ref()
                .filter_map(|row| match row {
                    [ID, id, ..] | [STATEMENT, 0, id, ..] if id >= nodes => Some(if number == 0 {
                        "a dangling node id, not met"
                    } else {
                        "a dangling node id in a file, not met"
                    }),
                    [NODE, _, _, 1, id, ..] | [STATEMENT, 1, id, ..] if id >= protos => {
                        Some("a dangling PROTO id, not met")
                    }
                    [NODE, _, _, 2, id, ..] | [STATEMENT, 2, id, ..] if id >= externs => {
                        Some("a dangling extern id, not met")
                    }
                    _ => None,
                })
                .collect();
            seen.extend(found);
        }
    }
}
