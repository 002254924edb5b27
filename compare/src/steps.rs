//! The steps of an expansion, with refusals 4 to 10 and each charge at its moment.

use std::collections::{HashMap, HashSet};

use crate::bound::Bound;
use crate::call::{refuse, Call, Refusal};
use crate::mutants::Mutant;
use crate::picks::{Pick, Picks};
use crate::rows::{MARK_FIELD, MARK_STATEMENT};
use crate::tree::*;

/// A scope: its entry, and what a body scope knows besides.
pub struct Scope {
    pub entry: [u32; 5],
    document: usize,
    /// The instance that opened it.
    pub instance: u32,
    /// The interface values of a body scope; nothing elsewhere.
    values: Option<HashMap<u32, Value>>,
    /// Associations met, in order.
    associations: Vec<[u32; 3]>,
    /// The scope under whose number its copies are mapped: itself.
    mapped_as: usize,
    /// The charges made before it.
    place: usize,
}

/// An instance node in its scope, and its PROTO by document and id.
struct Instance<'a> {
    scope: usize,
    id: u32,
    node: &'a Node,
    document: usize,
    proto: u32,
}

type Step<T> = Result<T, Refusal>;

/// What declares an extern: a body's statement, a node's origin.
const BY_BODY: &str = "a mark by a body's statement";
const BY_ORIGIN: &str = "a mark by a node's origin";

/// The state of the steps: what stands in the output so far, and the limits.
pub struct Steps<'a> {
    docs: Vec<&'a Doc>,
    picks: Picks,
    /// Nodes, depth, rows.
    limits: [usize; 3],
    mutant: Option<Mutant>,
    pub charges: usize,
    pub nodes: Vec<Node>,
    pub ledger: Vec<[u32; 3]>,
    pub scopes: Vec<Scope>,
    /// Scope and source id to output id.
    map: HashMap<(usize, u32), u32>,
    pub externs: Vec<Extern>,
    /// Of each of these, whether each url is marked: the pick took it (document 02, wish 1).
    pub marks: Vec<Vec<bool>>,
    /// Where an extern with a mark was declared, and what else there is to tell of marks.
    pub noted: HashSet<&'static str>,
    /// Document and extern id to output extern id.
    declared: HashMap<(usize, u32), u32>,
    /// The fields of instances bound by IS that were met.
    pub bound: Bound,
    /// What is found by a key, in the order made: the place of the scope and the source id of a map entry; the document and id of
    /// an extern; the place of the instance's first stored value and the name of one. A place is the charges made before.
    pub keys: Vec<[u32; 2]>,
}

impl<'a> Steps<'a> {
    /// Before the first step. Document 0 is the root, document n the n-th file.
    pub fn new(call: &Call, docs: Vec<&'a Doc>, picks: Picks, mutant: Option<Mutant>) -> Steps<'a> {
        Steps {
            docs,
            picks,
            limits: [call.max_nodes as usize, call.max_depth as usize, call.max_rows as usize],
            mutant,
            charges: 0,
            nodes: Vec::new(),
            ledger: Vec::new(),
            scopes: Vec::new(),
            map: HashMap::new(),
            externs: Vec::new(),
            marks: Vec::new(),
            noted: HashSet::new(),
            declared: HashMap::new(),
            bound: Bound::default(),
            keys: Vec::new(),
        }
    }

    fn is(&self, mutant: Mutant) -> bool {
        self.mutant == Some(mutant)
    }

    /// All steps: scope 0 and the top statements, which are answered.
    pub fn run(&mut self) -> Step<Vec<Statement>> {
        self.charge(2)?;
        let scope = self.open([0, 0, 0, 0, 0], 0)?;
        let root = self.docs[0];
        let mut top = Vec::new();
        for statement in &root.top {
            let kept = match statement {
                Statement::Node(id) => Statement::Node(self.copy(scope, *id, 0)?),
                Statement::Proto(_) => continue,
                Statement::Extern(id) => Statement::Extern(self.declare(0, *id, "a mark by a top statement")?),
                Statement::Route(route) => Statement::Route(self.remap(scope, route)),
                Statement::Other(payload) => Statement::Other(*payload),
            };
            self.charge(1)?;
            top.push(kept);
        }
        Ok(top)
    }

    /// That many charges, one after the other.
    fn charge(&mut self, count: usize) -> Step<()> {
        if count > self.limits[2] - self.charges {
            return refuse(10, 0, 0);
        }
        self.charges += count;
        Ok(())
    }

    /// A new scope, charged and listed.
    fn open(&mut self, entry: [u32; 5], instance: u32) -> Step<usize> {
        self.charge(1)?;
        let number = self.scopes.len();
        // Wish 7: "Each scope is charged before its entry is made and the slice has K entries, so it can't fill."
        assert!(number < self.limits[2], "the scopes slice is full");
        let document = entry[1] as usize;
        self.scopes.push(Scope {
            entry,
            document,
            instance,
            values: None,
            associations: Vec::new(),
            mapped_as: number,
            place: self.charges - 1,
        });
        Ok(number)
    }

    /// The map's key of a source id in a scope.
    fn key(&self, scope: usize, id: u32) -> (usize, u32) {
        let scope = &self.scopes[scope];
        if self.is(Mutant::OneMapForAllScopes) {
            (scope.document, id)
        } else {
            (scope.mapped_as, id)
        }
    }

    fn mapped(&self, scope: usize, id: u32) -> Option<u32> {
        self.map.get(&self.key(scope, id)).copied()
    }

    fn enter(&mut self, scope: usize, id: u32, out: u32) {
        let key = self.key(scope, id);
        self.map.insert(key, out);
        self.keys.push([self.scopes[scope].place as u32, id]);
    }

    /// A route with the ends that the scope's map has now.
    fn remap(&self, scope: usize, route: &Route) -> Route {
        let end = |id: Option<u32>| id.and_then(|id| self.mapped(scope, id));
        Route { names: route.names, from: end(route.from), to: end(route.to) }
    }

    /// The PROTO that a node of this document is an instance of: document and PROTO id.
    fn prototype(&self, document: usize, node: &Node) -> Option<(usize, u32)> {
        match node.origin {
            Origin::Proto(id) => Some((document, id)),
            Origin::Extern(_) if document > 0 && self.is(Mutant::FilesExternsPlain) => None,
            Origin::Extern(id) if self.is(Mutant::PicksByExternIdAlone) => self.picks.of_id(id).map(Pick::prototype),
            Origin::Extern(id) => self.picks.get(document, id).map(Pick::prototype),
            _ => None,
        }
    }

    /// The copy of a node in a scope, made `depth` nodes deep.
    fn copy(&mut self, scope: usize, id: u32, depth: usize) -> Step<u32> {
        let depth = depth + 1;
        if self.is(Mutant::DepthBeforeMap) && depth > self.limits[1] {
            return refuse(9, 0, 0);
        }
        if let Some(out) = self.mapped(scope, id) {
            return Ok(out);
        }
        let document = self.scopes[scope].document;
        let Some(node) = self.docs[document].nodes.get(id as usize) else {
            return refuse(5, document as u32, id);
        };
        if depth > self.limits[1] {
            return refuse(9, 0, 0);
        }
        match self.prototype(document, node) {
            Some((document, proto)) => self.instance(&Instance { scope, id, node, document, proto }, depth),
            None => self.plain(scope, id, node, depth),
        }
    }

    /// A value's copy; each id is charged after its node is copied.
    fn value(&mut self, scope: usize, value: &Value, depth: usize) -> Step<Value> {
        let Value::Nodes { tag, ids } = value else { return Ok(value.clone()) };
        let mut copies = Vec::new();
        for id in ids {
            let early = self.is(Mutant::IdChargedBeforeCopy);
            self.charge(early as usize)?;
            copies.push(self.copy(scope, *id, depth)?);
            self.charge(!early as usize)?;
        }
        Ok(Value::Nodes { tag: *tag, ids: copies })
    }

    /// The value that an IS target has in a scope, cloned: each id is charged.
    fn take_value(&mut self, scope: usize, target: u32) -> Step<Option<Value>> {
        let value = self.scopes[scope].values.as_ref().and_then(|v| v.get(&target)).cloned();
        if let Some(v) = value.as_ref().filter(|_| !self.is(Mutant::ClonedIdsNotCharged)) {
            self.charge(v.ids().len())?;
        }
        Ok(value)
    }

    fn in_body(&self, scope: usize) -> bool {
        self.scopes[scope].values.is_some()
    }

    /// Which urls of a declared extern are marked; `by` is what declares it.
    fn mark(&mut self, document: usize, id: u32, by: &'static str) -> Vec<bool> {
        let urls = &self.docs[document].externs[id as usize].urls;
        let pick = match document {
            1.. if self.is(Mutant::FilesMarkedAsTheRoot) => self.picks.get(0, id),
            1.. if self.is(Mutant::NoMarkInFiles) => None,
            _ => self.picks.get(document, id),
        };
        let Some(taken) = pick.map(|p| p.url).filter(|taken| *taken < urls.len()) else {
            self.noted.insert("an extern declared without a mark");
            if document > 0 {
                self.noted.insert("  of a file");
            }
            return vec![false; urls.len()];
        };
        if self.is(Mutant::NoMark) || by == BY_BODY && self.is(Mutant::NoMarkByBody) {
            return vec![false; urls.len()];
        }
        let base = urls[taken].0;
        let first = self.is(Mutant::FirstUrlMarked);
        let same = self.is(Mutant::UrlsOfTheBaseMarked);
        let last = self.is(Mutant::LastUrlMarked);
        let marks: Vec<bool> = (0..urls.len())
            .map(|at| match () {
                () if first => at == 0,
                () if last => at + 1 == urls.len(),
                () if same => urls[at].0 == base,
                () => at == taken,
            })
            .collect();
        if taken > 0 {
            self.noted.insert("a mark on a url that is not the first");
        }
        if urls[..taken].iter().any(|(b, _)| *b == base) {
            self.noted.insert("a mark behind another url of its base");
        }
        self.noted.insert(by);
        if document > 0 {
            self.noted.insert(match by {
                BY_BODY => "a mark in a file, by a body's statement",
                _ => "a mark in a file, by a statement in a node",
            });
        }
        marks
    }

    /// The output id of an extern of a document, declared at its first mention, which `by` tells.
    fn declare(&mut self, document: usize, id: u32, by: &'static str) -> Step<u32> {
        let key = if self.is(Mutant::ExternDeclaredPerId) { (0, id) } else { (document, id) };
        if let Some(out) = self.declared.get(&key) {
            return Ok(*out);
        }
        let early = self.is(Mutant::ExternChargedBeforeLookup);
        self.charge(early as usize)?;
        let Some(declaration) = self.docs[document].externs.get(id as usize) else {
            return refuse(4, document as u32, id);
        };
        self.charge(!early as usize + declaration.interfaces.len() + declaration.urls.len())?;
        let out = self.externs.len() as u32;
        self.externs.push(declaration.clone());
        let marks = self.mark(document, id, by);
        self.marks.push(marks);
        self.declared.insert(key, out);
        self.keys.push([document as u32, id]);
        Ok(out)
    }

    /// The copy of a plain node.
    fn plain(&mut self, scope: usize, id: u32, node: &'a Node, depth: usize) -> Step<u32> {
        let document = self.scopes[scope].document;
        if self.is(Mutant::NodesLimitAfterExtern) {
            if let Origin::Extern(e) = node.origin {
                self.declare(document, e, BY_ORIGIN)?;
            }
        }
        let early = self.is(Mutant::RowChargedBeforeNodesLimit);
        self.charge(early as usize)?;
        if self.nodes.len() >= self.limits[0] {
            return refuse(8, 0, 0);
        }
        self.charge(2 - early as usize)?;
        let new = self.nodes.len();
        let out = new as u32;
        let mut copy = Node::new(node.type_name, node.origin);
        copy.def = node.def;
        self.nodes.push(copy);
        self.ledger.push([scope as u32, document as u32, id]);
        self.enter(scope, id, out);
        if let Origin::Extern(e) = node.origin {
            self.nodes[new].origin = Origin::Extern(self.declare(document, e, BY_ORIGIN)?);
        }
        let fields_kept = self.fields(scope, node, new, depth)?;
        self.interfaces(scope, node, new, depth)?;
        let statements_kept = self.statements(scope, node, new)?;
        self.order(node, new, &fields_kept, &statements_kept)?;
        Ok(out)
    }

    /// An IS: charged and noted in the scope.
    fn associate(&mut self, scope: usize, target: u32, new: usize, name: u32) -> Step<()> {
        let free = self.is(Mutant::UnwrittenAssociationsNotCharged) && !self.in_body(scope);
        self.charge(!free as usize)?;
        self.scopes[scope].associations.push([target, new as u32, name]);
        Ok(())
    }

    /// The fields of a plain copy; which ones were kept.
    fn fields(&mut self, scope: usize, node: &'a Node, new: usize, depth: usize) -> Step<Vec<bool>> {
        let mut kept = Vec::new();
        for field in &node.fields {
            let early = self.is(Mutant::FieldChargedBeforeValue) && matches!(field.binding, Binding::Value(_));
            self.charge(early as usize)?;
            let binding = match &field.binding {
                Binding::Value(value) => Some(Binding::Value(self.value(scope, value, depth)?)),
                Binding::Is(target) => {
                    self.associate(scope, *target, new, field.name)?;
                    if self.in_body(scope) {
                        let own = node.interfaces.iter().find(|i| i.name == field.name).and_then(|i| i.value.as_ref());
                        match (self.take_value(scope, *target)?, own) {
                            (None, Some(own)) if self.is(Mutant::PlainFieldTakesDefault) => {
                                Some(Binding::Value(self.value(scope, own, depth)?))
                            }
                            (value, _) => value.map(Binding::Value),
                        }
                    } else if self.is(Mutant::IsOutsideBodyDropped) {
                        None
                    } else {
                        Some(Binding::Is(*target))
                    }
                }
            };
            kept.push(binding.is_some());
            if let Some(binding) = binding {
                self.charge(!early as usize)?;
                self.nodes[new].fields.push(Field { name: field.name, binding, inferred: field.inferred });
            }
        }
        Ok(kept)
    }

    /// The interfaces of a plain copy; all are kept.
    fn interfaces(&mut self, scope: usize, node: &'a Node, new: usize, depth: usize) -> Step<()> {
        for interface in &node.interfaces {
            let (is, value) = match (interface.is, &interface.value) {
                (Some(target), _) => {
                    self.associate(scope, target, new, interface.name)?;
                    if self.in_body(scope) {
                        match (self.take_value(scope, target)?, &interface.value) {
                            (None, Some(own)) if self.is(Mutant::PlainInterfaceTakesDefault) => {
                                (None, Some(self.value(scope, own, depth)?))
                            }
                            (value, _) => (None, value),
                        }
                    } else {
                        (Some(target), None)
                    }
                }
                (None, Some(value)) => (None, Some(self.value(scope, value, depth)?)),
                (None, None) => (None, None),
            };
            self.charge(1)?;
            self.nodes[new].interfaces.push(Interface { is, value, ..*interface });
        }
        Ok(())
    }

    /// The statements of a plain copy, Route and ExternProto only; which ones were kept.
    fn statements(&mut self, scope: usize, node: &'a Node, new: usize) -> Step<Vec<bool>> {
        let document = self.scopes[scope].document;
        let mut kept = Vec::new();
        for statement in &node.statements {
            let copy = match statement {
                Statement::Route(route) => Some(Statement::Route(self.remap(scope, route))),
                Statement::Extern(id) => {
                    Some(Statement::Extern(self.declare(document, *id, "a mark by a statement in a node")?))
                }
                _ => None,
            };
            kept.push(copy.is_some());
            if let Some(copy) = copy {
                self.charge(1)?;
                self.nodes[new].statements.push(copy);
            }
        }
        Ok(kept)
    }

    /// The body order of a plain copy, without the marks of what was dropped and of what isn't there.
    fn order(&mut self, node: &Node, new: usize, fields: &[bool], statements: &[bool]) -> Step<()> {
        let past = self.is(Mutant::MarksPastTheEndKept);
        let mut fields = fields.iter();
        let mut statements = statements.iter();
        for mark in &node.order {
            let keep = match *mark {
                MARK_FIELD => fields.next().copied().unwrap_or(past),
                MARK_STATEMENT => statements.next().copied().unwrap_or(past),
                _ => true,
            };
            if keep {
                self.charge(1)?;
                self.nodes[new].order.push(*mark);
            }
        }
        Ok(())
    }

    /// The value that an instance has for the interface of this index of its PROTO: its field's, or the default where it has
    /// no such field or one bound by IS to something without a value.
    fn given(&mut self, instance: &Instance<'a>, proto: &'a Proto, index: usize, depth: usize) -> Step<Option<Value>> {
        let Instance { scope, id, node, document, proto: proto_id } = *instance;
        let interface = &proto.interfaces[index];
        let mut equal = node.fields.iter().filter(|f| f.name == interface.name);
        let field = if self.is(Mutant::FirstOfEqualFields) { equal.next() } else { equal.next_back() };
        let by_is = match field.map(|f| &f.binding) {
            Some(Binding::Value(value)) => return self.value(scope, value, depth).map(Some),
            Some(Binding::Is(target)) => {
                let value = self.take_value(scope, *target)?;
                let although = self.is(Mutant::IsWithValueTakesDefault) && interface.value.is_some();
                if (value.is_some() && !although) || self.is(Mutant::IsToNothingTakesNone) {
                    self.bound.valued.insert((self.scopes[scope].document, id, interface.name));
                    return Ok(value);
                }
                true
            }
            None => false,
        };
        let first = self.is(Mutant::FirstDefaultOfRepeatedName) && by_is;
        let declared = if first { proto.interfaces.iter().find(|i| i.name == interface.name) } else { Some(interface) };
        let Some(default) = declared.and_then(|i| i.value.as_ref()) else { return Ok(None) };
        if by_is {
            self.bound.unset.insert((self.scopes[scope].document, id, interface.name));
            if self.is(Mutant::IsDefaultInInstanceScope) {
                return self.value(scope, default, depth).map(Some);
            }
        }
        if self.is(Mutant::PayloadDefaultOpensNoScope) && matches!(default, Value::Payload { .. }) {
            return Ok(Some(default.clone()));
        }
        let defaults = |list: &[Interface]| list.iter().filter(|i| i.value.is_some()).count();
        let index = if self.is(Mutant::IndexAmongDefaults) { defaults(&proto.interfaces[..index]) } else { index };
        let opened = self.open([2, document as u32, proto_id, index as u32, scope as u32], id)?;
        if self.is(Mutant::DefaultSharesInstanceMap) {
            self.scopes[opened].mapped_as = self.scopes[scope].mapped_as;
        }
        self.value(opened, default, depth).map(Some)
    }

    /// An instance: its values, its body in a fresh scope, its record on the body's root.
    fn instance(&mut self, instance: &Instance<'a>, depth: usize) -> Step<u32> {
        let Instance { scope, id, node, document, proto: proto_id } = *instance;
        let Some(proto) = self.docs[document].protos.get(proto_id as usize) else {
            let here = self.is(Mutant::SixInTheInstancesDocument);
            let document = if here { self.scopes[scope].document } else { document };
            return refuse(6, document as u32, proto_id);
        };
        if self.is(Mutant::InstanceMappedBeforeValues) {
            self.enter(scope, id, self.nodes.len() as u32);
        }
        let early = self.is(Mutant::BodyScopeBeforeValues);
        let entry = [1, document as u32, proto_id, 0, scope as u32];
        let opened = if early { Some(self.open(entry, id)?) } else { None };
        let mut values = HashMap::new();
        let mut first = None;
        for (index, interface) in proto.interfaces.iter().enumerate() {
            if let Some(value) = self.given(instance, proto, index, depth)? {
                let free = self.is(Mutant::OverwritingStoreNotCharged) && values.contains_key(&interface.name);
                let first = *first.get_or_insert(self.charges);
                self.charge(!free as usize)?;
                self.keys.push([first as u32, interface.name]);
                values.insert(interface.name, value);
            } else if self.is(Mutant::RepeatedNameOverwritesWithNothing) {
                values.remove(&interface.name);
            }
        }
        if self.is(Mutant::RootlessBeforeBody) && !proto.body.iter().any(|s| matches!(s, Statement::Node(_))) {
            return refuse(7, document as u32, proto_id);
        }
        let body = match opened {
            Some(body) => body,
            None => self.open(entry, id)?,
        };
        self.scopes[body].values = Some(values);
        let mut root = None;
        let mut roots = Vec::new();
        let mut routes = Vec::new();
        let late = self.is(Mutant::RoutesChargedAfterBody);
        let late_entry = self.is(Mutant::InstanceEntryChargedAfterBody);
        for statement in &proto.body {
            match statement {
                Statement::Node(inner) => {
                    let out = self.copy(body, *inner, depth)?;
                    let free = late_entry && root.is_none();
                    self.charge(!free as usize)?;
                    if root.is_none() {
                        root = Some(out);
                        self.enter(scope, id, out);
                    } else {
                        roots.push(out);
                    }
                }
                Statement::Route(route) => {
                    self.charge(!late as usize)?;
                    let now = self.remap(body, route);
                    routes.push((route, now));
                }
                Statement::Extern(inner) => {
                    self.declare(document, *inner, BY_BODY)?;
                }
                Statement::Proto(_) | Statement::Other(_) => {}
            }
        }
        self.charge(if late { routes.len() } else { 0 })?;
        self.charge((late_entry && root.is_some()) as usize)?;
        let early = self.is(Mutant::RoutesRemappedWhereTheyStand);
        let routes = routes.into_iter().map(|(r, now)| if early { now } else { self.remap(body, r) }).collect();
        let early = self.is(Mutant::RecordChargedBeforeRootless);
        self.charge(early as usize)?;
        let Some(root) = root else { return refuse(7, document as u32, proto_id) };
        self.charge(!early as usize)?;
        let associations = std::mem::take(&mut self.scopes[body].associations);
        let record = Record { name: proto.name, roots, routes, associations };
        self.attach(root, node.def, record);
        Ok(root)
    }

    /// The record and the DEF name of an instance go to its root; a nested record's roots and routes follow.
    fn attach(&mut self, root: u32, def: Option<u32>, mut record: Record) {
        let nested_first = self.is(Mutant::NestedRootsFirst);
        let nested_associations = self.is(Mutant::NestedAssociationsKept);
        let keep_def = self.is(Mutant::DefNotReplaced);
        let node = &mut self.nodes[root as usize];
        if def.is_some() && !keep_def {
            node.def = def;
        }
        if let Some(mut nested) = node.instance.take() {
            if nested_first {
                std::mem::swap(&mut record.roots, &mut nested.roots);
                std::mem::swap(&mut record.routes, &mut nested.routes);
            }
            record.roots.append(&mut nested.roots);
            record.routes.append(&mut nested.routes);
            if nested_associations {
                record.associations.append(&mut nested.associations);
            }
        }
        node.instance = Some(record);
    }
}
