//! Scenes over a number, in which a search or a walk of the code would be repeated: names and ids that meet in one slot, lists
//! passed over again and again, tables without room. K is the charges, or the rows handed in where they are more.

use super::slots::{name_at, name_of_rest, slots, spread};
use crate::call::Call;
use crate::scenes::large::{self, mention, node, nodes};
use crate::scenes::Scene;
use crate::tree::*;

/// A scene over a number, the least number that it is timed at, and by how much the number grows.
pub struct Growing {
    pub name: &'static str,
    pub make: fn(u32) -> Call,
    pub first: u32,
    pub factor: u32,
}

/// The depth where a scene asks for none. With less, the indexes may be short of words.
const DEPTH: u32 = 16;
/// Charges of a call without statements, and of a top statement with an instance of a body of one plain node.
const START: u32 = 3;
const INSTANCE: u32 = 6;
/// The place of scope 0's record.
const SCOPE_0: u64 = 2;

fn payload(number: u32) -> Value {
    Value::Payload { tag: 4, number }
}

fn given(name: u32) -> Field {
    Field { name, binding: Binding::Value(payload(1)), inferred: 0 }
}

fn given_nodes(name: u32, ids: Vec<u32>) -> Field {
    Field { name, binding: Binding::Value(Value::Nodes { tag: 14, ids }), inferred: 0 }
}

fn bound(name: u32, target: u32) -> Field {
    Field { name, binding: Binding::Is(target), inferred: 0 }
}

fn interface(name: u32, value: Option<Value>) -> Interface {
    Interface { access: 3, tag: 4, name, is: None, value }
}

fn declared(name: u32) -> Interface {
    interface(name, Some(payload(1)))
}

fn plain(fields: Vec<Field>) -> Node {
    node(Origin::Builtin, fields)
}

fn proto(interfaces: Vec<Interface>, body: Vec<Statement>) -> Proto {
    Proto { name: 9, interfaces, body }
}

fn route(from: u32, to: u32) -> Statement {
    Statement::Route(Route { names: [1, 2, 3, 4], from: Some(from), to: Some(to) })
}

fn several<T>(count: u32, make: impl Fn(u32) -> T) -> Vec<T> {
    (0..count).map(make).collect()
}

fn root(nodes: Vec<Node>, protos: Vec<Proto>, top: Vec<Statement>) -> Scene {
    Scene { max_depth: DEPTH, ..large::scene(nodes, protos, top) }
}

/// A root with externs only, besides its nodes and top statements, and a library.
fn with_files(nodes: Vec<Node>, externs: Vec<Extern>, top: Vec<Statement>, files: Vec<File>) -> Scene {
    let root = Doc { header: 5, nodes, protos: vec![], externs, top };
    Scene { root, files, max_nodes: 4_000_000, max_depth: DEPTH }
}

fn file(base: u32, nodes: Vec<Node>, protos: Vec<Proto>, top: Vec<Statement>) -> File {
    File { base, doc: Doc { header: 5, nodes, protos, externs: vec![], top } }
}

fn extern_of(urls: Vec<(u32, Option<u32>)>) -> Extern {
    Extern { name: 3, interfaces: vec![], urls }
}

/// A scene with K these charges, or its rows where they are more; N no more than K.
fn call(scene: Scene, charges: u32) -> Call {
    let call = scene.call(0);
    let rows = charges.max(call.size() as u32);
    Call::new(call.root, call.library, scene.max_nodes.min(rows), scene.max_depth, rows)
}

/// The same for a scene whose names depend on the slots of the journal's index.
fn in_slots(charges: u32, make: impl Fn(u64) -> Scene) -> Call {
    let unnamed = make(1 << 20);
    let rows = charges.max(unnamed.call(0).size() as u32);
    call(make(slots(rows, unnamed.max_depth)), charges)
}

/// N, D and K as the issue has them.
fn as_issued(scene: Scene, n: u32) -> Call {
    let call = Scene { max_nodes: 100, max_depth: 4, ..scene }.call(5 * n + 100);
    assert!(call.size() as u32 <= call.max_rows);
    call
}

/// An instance with these fields of a PROTO with these interfaces, whose body is a node with these fields.
fn instance(fields: Vec<Field>, interfaces: Vec<Interface>, body: Vec<Field>) -> Scene {
    root(vec![node(Origin::Proto(0), fields), plain(body)], vec![proto(interfaces, mention([1]))], mention([0]))
}

/// The same, the instance in the body of a PROTO of a library file.
fn in_file(fields: Vec<Field>, interfaces: Vec<Interface>) -> Scene {
    let list = vec![node(Origin::Proto(1), fields), plain(vec![])];
    let protos = vec![proto(vec![], mention([0])), proto(interfaces, mention([1]))];
    let files = vec![file(1, list, protos, vec![Statement::Proto(0)])];
    with_files(vec![node(Origin::Extern(0), vec![])], vec![extern_of(vec![(1, None)])], mention([0]), files)
}

// Names of fields and interfaces.

fn names_apart(n: u32) -> Call {
    as_issued(instance(several(n, |i| given(1_000_000 + i)), several(n, |i| declared(2_000_000 + i)), vec![]), n)
}

fn names_in_file(n: u32) -> Call {
    as_issued(in_file(several(n, given), several(n, declared)), n)
}

fn names_in_file_apart(n: u32) -> Call {
    as_issued(in_file(several(n, |i| given(1_000_000 + i)), several(n, |i| declared(2_000_000 + i))), n)
}

fn equal_names(n: u32) -> Call {
    as_issued(instance(several(n, given), several(n, |i| declared(n - 1 - i)), vec![]), n)
}

/// Equal names that have one word of a table of twice as many words as there are fields.
fn names_of_one_rest(n: u32) -> Call {
    let name = |i: u32| name_of_rest(2 * n as u64, 0, i as u64);
    as_issued(instance(several(n, |i| given(name(i))), several(n, |i| declared(name(i))), vec![]), n)
}

/// Equal names, K just the rows: a table of twice the names has no room.
fn names_without_room(n: u32) -> Call {
    call(instance(several(n, given), several(n, declared), vec![]), START + n + INSTANCE)
}

/// Equal names, K just the rows, the instance behind others of 17 fields whose tables come first.
fn names_behind_others(n: u32) -> Call {
    let mut scene = instance(several(n, given), several(n, declared), vec![]);
    let others = several(7 * n / 18, |_| node(Origin::Proto(0), several(17, given)));
    let count = others.len() as u32;
    scene.root.nodes.splice(0..0, others);
    scene.root.protos[0].body = mention([count + 1]);
    scene.root.top = mention([count]);
    call(scene, START + n + INSTANCE)
}

/// The same in a file, whose number is not the first.
fn names_in_file_behind_others(n: u32) -> Call {
    let mut scene = in_file(several(n, given), several(n, declared));
    let others = several(7 * n / 18, |_| node(Origin::Proto(0), several(17, given)));
    scene.files.insert(0, file(2, others, vec![], vec![]));
    scene.root.externs.insert(0, extern_of(vec![(2, None)]));
    scene.root.nodes[0].origin = Origin::Extern(1);
    call(scene, START + n + 2 * INSTANCE)
}

/// One name on every field and every interface, and taken as often.
fn one_name(n: u32) -> Call {
    call(
        instance(several(n, |_| given(5)), several(n, |_| declared(5)), several(n, |i| bound(i, 5))),
        START + 3 * n + INSTANCE,
    )
}

/// Sixteen fields with n ids, n interfaces of other names.
fn sixteen_fields(n: u32) -> Call {
    let fields = several(16, |i| given_nodes(i, vec![1; n as usize / 16]));
    call(instance(fields, several(n, |i| declared(100 + i)), vec![]), START + 2 * n + INSTANCE)
}

/// One field with n ids, one interface, n scopes.
fn ids_in_scopes(n: u32) -> Call {
    // Nodes: the outer body's root, the inner instance with the ids, the inner body, the instances.
    let inner = node(Origin::Proto(1), vec![given_nodes(50, vec![2; n as usize])]);
    let mut list = vec![plain(nodes(vec![1])), inner, plain(vec![])];
    list.extend(several(n, |_| node(Origin::Proto(0), vec![])));
    let protos = vec![proto(vec![], mention([0])), proto(vec![interface(60, None)], mention([2]))];
    call(root(list, protos, mention(3..3 + n)), START + 13 * n)
}

// Stored values, map entries and externs in the journal's index.

/// The defaults of n interfaces taken by n IS, all names of one slot.
fn stored_in_one_slot(n: u32) -> Call {
    // The first default: its scope, then the first stored value.
    let family = START as u64 + 1;
    let name = |slots, i: u32| name_at(slots, family, 0, i as u64);
    let scene =
        |slots| instance(vec![], several(n, |i| declared(name(slots, i))), several(n, |i| bound(i, name(slots, i))));
    as_issued(scene(slots(5 * n + 100, 4)), n)
}

fn stored(n: u32) -> Call {
    as_issued(instance(vec![], several(n, declared), several(n, |i| bound(i, n - 1 - i))), n)
}

/// One name stored n times, and n IS to another name of its slot, which has no value.
fn stored_behind_one_name(n: u32) -> Call {
    let family = START as u64 + 1;
    let scene = |slots| {
        let [one, other] = [0, 1].map(|i| name_at(slots, family, 0, i));
        instance(vec![], several(n, |_| declared(one)), several(n, |i| bound(i, other)))
    };
    in_slots(START + 3 * n + INSTANCE, scene)
}

/// n IS to names that have no value, beside n that are stored.
fn not_found(n: u32) -> Call {
    call(instance(vec![], several(n, declared), several(n, |i| bound(i, n + i))), START + 3 * n + INSTANCE)
}

/// A node, then a value stored n times in the slot of its map entry, then the node mentioned n times.
fn stored_over_map(n: u32) -> Call {
    // Charges before the first stored value: the node with its statement, the scope of the default.
    let family = START as u64 + 3 + 1;
    let scene = |slots| {
        let name = name_at(slots, family, 2 * SCOPE_0, 0);
        let list = vec![plain(vec![]), node(Origin::Proto(0), vec![]), plain(vec![])];
        let protos = vec![proto(several(n, |_| declared(name)), mention([2]))];
        root(list, protos, mention([0, 1]).into_iter().chain(mention((0..n).map(|_| 0))).collect())
    };
    in_slots(START + 3 + 2 * n + INSTANCE + n, scene)
}

/// An extern, then a value stored n times in its slot, then the extern mentioned n times.
fn stored_over_extern(n: u32) -> Call {
    // Charges before the first stored value: the extern with its statement, the scope of the default.
    let family = START as u64 + 2 + 1;
    let scene = |slots| {
        let name = name_at(slots, family, 0, 0);
        let list = vec![node(Origin::Proto(0), vec![]), plain(vec![])];
        let protos = vec![proto(several(n, |_| declared(name)), mention([1]))];
        let mut top = vec![Statement::Extern(0), Statement::Node(0)];
        top.extend(several(n, |_| Statement::Extern(0)));
        let mut scene = root(list, protos, top);
        scene.root.externs = vec![extern_of(vec![])];
        scene
    };
    in_slots(START + 2 + 2 * n + INSTANCE + n, scene)
}

/// A PROTO whose n defaults have a node each: n scopes with one map entry, all in one slot.
fn maps_in_one_slot(n: u32) -> Call {
    // A default: its scope, a node and its map entry, its id, the stored value.
    let step = 5;
    // The slots of the scopes go up by twice the step, the ids' go down as much.
    let id = |i: u32| spread(2 * step * (n - 1 - i) as u64) as u32;
    let count = (2 * step as u32 * n).div_ceil(1 << 16) << 16;
    let mut list = several(count, |_| plain(vec![]));
    list.extend([node(Origin::Proto(0), vec![]), plain(vec![])]);
    let default = |i| interface(i, Some(Value::Nodes { tag: 14, ids: vec![id(i)] }));
    let scene = root(list, vec![proto(several(n, default), mention([count + 1]))], mention([count]));
    call(scene, START + step as u32 * n + INSTANCE)
}

/// n instances with n stored values each, and n IS to other names: the slots of one instance's values are those of the next
/// one's.
fn families_in_few_slots(n: u32) -> Call {
    // An instance: n defaults, each with a scope, and n IS, each with an association.
    let step = 3 * n + INSTANCE;
    let scene = |slots: u64| {
        let name = |i: u32, turn| name_at(slots, 0, 2 * step as u64 * i as u64 % slots, turn);
        let mut list = several(n, |_| node(Origin::Proto(0), vec![]));
        list.push(plain(several(n, |i| bound(i, name(i, 1)))));
        root(list, vec![proto(several(n, |i| declared(name(i, 0))), mention([n]))], mention(0..n))
    };
    in_slots(START + n * step, scene)
}

fn families(n: u32) -> Call {
    let mut list = several(n, |_| node(Origin::Proto(0), vec![]));
    list.push(plain(several(n, |i| bound(i, n - 1 - i))));
    let scene = root(list, vec![proto(several(n, declared), mention([n]))], mention(0..n));
    call(scene, START + n * (4 * n + INSTANCE))
}

/// n instances of a body of n nodes, in n scopes: the slots of one scope's ids are those of the next one's.
fn maps_in_few_slots(n: u32) -> Call {
    // An instance: n nodes with their map entries, each with an entry of its own or an extra root.
    let step = 3 * n + INSTANCE - 3;
    let id = |i: u32| spread(2 * step as u64 * i as u64) as u32;
    let count = (2 * step * n).div_ceil(1 << 16) << 16;
    let mut list = several(count, |_| plain(vec![]));
    list.extend(several(n, |_| node(Origin::Proto(0), vec![])));
    let scene = root(list, vec![proto(vec![], mention((0..n).map(|i| id(n - 1 - i))))], mention(count..count + n));
    call(scene, START + n * step)
}

/// n externs in 64 files, declared by the bodies that are picked; each file's ids next to the slots of the file before.
fn externs_of_files(n: u32) -> Call {
    let each = n / 64;
    let body = || mention([0]).into_iter().chain((0..each).map(Statement::Extern)).collect();
    let file = |base| {
        let mut file = file(base, vec![plain(vec![])], vec![proto(vec![], body())], vec![Statement::Proto(0)]);
        file.doc.externs = several(each, |_| extern_of(vec![]));
        file
    };
    let list = several(64, |i| node(Origin::Extern(i), vec![]));
    let externs = several(64, |i| extern_of(vec![(i, None)]));
    call(with_files(list, externs, mention(0..64), several(64, file)), START + 64 * INSTANCE + n)
}

// Picks.

/// A file with a PROTO and a Proto statement for each name.
fn file_of_names(base: u32, names: &[u32]) -> File {
    let protos = names.iter().map(|name| Proto { name: *name, interfaces: vec![], body: mention([0]) }).collect();
    file(base, vec![plain(vec![])], protos, (0..names.len() as u32).map(Statement::Proto).collect())
}

/// n externs, and an instance of each, of n PROTOs of one file.
fn picked(names: Vec<u32>, files: Vec<File>, base: u32) -> Call {
    let n = names.len() as u32;
    let externs = names.iter().rev().map(|name| extern_of(vec![(base, Some(*name))])).collect();
    let list = several(n, |i| node(Origin::Extern(i), vec![]));
    call(with_files(list, externs, mention(0..n), files), START + INSTANCE * n)
}

fn fragments(n: u32) -> Call {
    let names: Vec<u32> = (0..n).collect();
    picked(names.clone(), vec![file_of_names(1, &names)], 1)
}

/// Names of one remainder by twice as many as there are PROTOs, and one.
fn fragments_of_one_rest(n: u32) -> Call {
    let names = several(n, |i| name_of_rest(2 * n as u64 + 1, 0, i as u64));
    picked(names.clone(), vec![file_of_names(1, &names)], 1)
}

/// Names in falling order.
fn fragments_falling(n: u32) -> Call {
    let names: Vec<u32> = (0..n).rev().collect();
    picked(names.clone(), vec![file_of_names(1, &names)], 1)
}

/// Four Proto statements for each PROTO, those of a PROTO far from each other.
fn fragments_declared_again(n: u32) -> Call {
    let names: Vec<u32> = (0..n).collect();
    let mut file = file_of_names(1, &names);
    file.doc.top = several(4 * n, |i| Statement::Proto(i % n));
    picked(names, vec![file], 1)
}

/// A fragment that is not there, of the same remainder as the first PROTO's name.
fn fragments_absent(n: u32) -> Call {
    let names: Vec<u32> = (0..n).collect();
    let externs = several(n, |_| extern_of(vec![(1, Some(2 * n + 1))]));
    call(with_files(vec![], externs, vec![], vec![file_of_names(1, &names)]), START)
}

/// One name on every PROTO, and as fragment of every url.
fn fragments_of_one_name(n: u32) -> Call {
    picked(vec![5; n as usize], vec![file_of_names(1, &vec![5; n as usize])], 1)
}

/// n Proto statements that lead nowhere before the PROTO of each of n urls.
fn dangling_protos(n: u32) -> Call {
    let mut file = file_of_names(1, &[5]);
    file.doc.top = several(n, |i| Statement::Proto(1 + i));
    file.doc.top.push(Statement::Proto(0));
    picked(vec![5; n as usize], vec![file], 1)
}

/// The same file, but its number is 256 more than another one's.
fn second_file(n: u32) -> Call {
    let names: Vec<u32> = (0..n).collect();
    let mut files: Vec<File> = several(256, |i| file_of_names(if i == 0 { 1 } else { 9 }, &[1]));
    files.push(file_of_names(2, &names));
    let mut externs = vec![extern_of(vec![(1, None)])];
    externs.extend(names.iter().rev().map(|name| extern_of(vec![(2, Some(*name))])));
    let list = several(n + 1, |i| node(Origin::Extern(i), vec![]));
    call(with_files(list, externs, mention(0..n + 1), files), START + INSTANCE * (n + 1))
}

/// Externs without a url fill the cache of picks, K just the rows; n nodes of one extern behind them.
fn picks_without_room(n: u32) -> Call {
    let others = 5 * n;
    let mut externs = several(others, |_| extern_of(vec![]));
    externs.push(extern_of(vec![(1, None)]));
    let filler = several(n, |_| plain(vec![]));
    let mut file = file_of_names(1, &[5]);
    file.doc.nodes.extend(filler);
    let list = several(n, |_| node(Origin::Extern(others), vec![]));
    call(with_files(list, externs, mention(0..n), vec![file]), START + INSTANCE * n)
}

/// The cache of picks behind the tables of names of nodes of 17 fields, K just the rows; n externs, n nodes of each of the last.
fn picks_behind_names(n: u32) -> Call {
    let others = several(n, |_| node(Origin::Proto(0), several(17, given)));
    let mut externs = several(20 * n, |_| extern_of(vec![]));
    externs.extend(several(4, |_| extern_of(vec![(1, Some(5))])));
    let mut file = file_of_names(1, &[5]);
    file.doc.nodes.extend(several(n, |_| plain(vec![])));
    let mut list = several(n, |i| node(Origin::Extern(20 * n + i % 4), vec![]));
    list.extend(others);
    call(with_files(list, externs, mention(0..n), vec![file]), START + INSTANCE * n)
}

/// A file with n nodes of its extern in a body, which picks the last of n PROTOs of another file.
fn nodes_of_a_files_extern(n: u32) -> Call {
    let names: Vec<u32> = (0..n).collect();
    let list = several(n, |_| node(Origin::Extern(0), vec![]));
    let mut naming = file(1, list, vec![proto(vec![], mention(0..n))], vec![Statement::Proto(0)]);
    naming.doc.externs.push(extern_of(vec![(2, Some(n - 1))]));
    let externs = vec![extern_of(vec![(1, None)])];
    let files = vec![naming, file_of_names(2, &names)];
    call(with_files(vec![node(Origin::Extern(0), vec![])], externs, mention([0]), files), START + 3 + INSTANCE * n)
}

/// n urls of one extern, none of which leads to a PROTO.
fn urls_absent(n: u32) -> Call {
    let names: Vec<u32> = (0..n / 2).collect();
    let externs = vec![extern_of(several(n, |_| (1, Some(n + 1))))];
    call(with_files(vec![], externs, vec![], vec![file_of_names(1, &names)]), START)
}

/// n urls of one extern, each of a base of its own: 64 of them are looked for in n files.
fn urls_of_bases(n: u32) -> Call {
    let files = several(n / 8, |i| file_of_names(2 * n + i, &[5]));
    let externs = vec![extern_of(several(n, |i| (i, Some(5))))];
    call(with_files(vec![node(Origin::Extern(0), vec![])], externs, mention([0]), files), START + 5 + n)
}

/// n files, 64 bases behind them.
fn many_files(n: u32) -> Call {
    call(Scene { max_depth: DEPTH, ..large::behind(n + 64) }, START + 64 * INSTANCE)
}

/// A depth and a K so small that an index has a word for two nodes; n lookups of the node after one of n rows.
fn two_nodes_a_word(n: u32) -> Call {
    let mut list = vec![plain(several(4 * n, given)), plain(vec![])];
    list.extend(several(n, |_| node(Origin::Proto(0), vec![])));
    let scene = root(list, vec![proto(vec![], mention([1]))], mention(2..2 + n));
    call(Scene { max_depth: 4, ..scene }, START + INSTANCE * n)
}

// What is passed over without a charge.

/// n instances of a PROTO, and the nodes of its body.
fn instances(n: u32, proto: impl Fn(u32) -> Proto, fields: Vec<Field>, body: Node, charges: u32) -> Call {
    let mut list = several(n, |_| node(Origin::Proto(0), fields.clone()));
    list.push(body);
    call(root(list, vec![proto(n)], mention(0..n)), START + (INSTANCE + charges) * n)
}

fn events(n: u32) -> Call {
    instances(n, |root| proto(several(n, |i| interface(i, None)), mention([root])), vec![], plain(vec![]), 0)
}

fn others_in_body(n: u32) -> Call {
    let body = |root| mention([root]).into_iter().chain((0..n).map(Statement::Other)).collect();
    instances(n, |root| proto(vec![], body(root)), vec![], plain(vec![]), 0)
}

fn externs_in_body(n: u32) -> Call {
    let body = mention([n]).into_iter().chain((0..n).map(|_| Statement::Extern(0))).collect();
    let mut list = several(n, |_| node(Origin::Proto(0), vec![]));
    list.push(plain(vec![]));
    let mut scene = root(list, vec![proto(vec![], body)], mention(0..n));
    scene.root.externs = vec![extern_of(vec![])];
    call(scene, START + INSTANCE * n + 1)
}

fn defaults_passed_over(n: u32) -> Call {
    let default = |root| interface(5, Some(Value::Nodes { tag: 14, ids: vec![root; n as usize] }));
    instances(n, |root| proto(vec![default(root)], mention([root])), vec![given(5)], plain(vec![]), 1)
}

fn dropped_statements(n: u32) -> Call {
    let body = Node { statements: several(n, Statement::Other), ..plain(vec![]) };
    instances(n, |root| proto(vec![], mention([root])), vec![], body, 0)
}

fn dropped_marks(n: u32) -> Call {
    let body = Node { order: vec![0; n as usize], ..plain(vec![]) };
    instances(n, |root| proto(vec![], mention([root])), vec![], body, 0)
}

fn dropped_ids(n: u32) -> Call {
    let taken = Interface { is: Some(5), ..interface(5, Some(Value::Nodes { tag: 14, ids: vec![n; n as usize] })) };
    let body = Node { interfaces: vec![taken], ..plain(vec![]) };
    instances(n, |root| proto(vec![], mention([root])), vec![], body, 2)
}

/// n scopes, in each an instance with n fields bound by IS to what has no value.
fn bound_to_nothing(n: u32) -> Call {
    let inner = node(Origin::Proto(1), several(n, |i| bound(i, 100 + i)));
    let mut list = vec![plain(nodes(vec![1])), inner, plain(vec![])];
    list.extend(several(n, |_| node(Origin::Proto(0), vec![])));
    let protos = vec![proto(vec![], mention([0])), proto(several(n, |i| interface(i, None)), mention([2]))];
    call(root(list, protos, mention(3..3 + n)), START + 13 * n)
}

// Lists that are walked, each once.

fn order_of_kept_and_dropped(n: u32) -> Call {
    // Every other field is bound to something without a value.
    let field = |i: u32| if i % 2 == 0 { given(i) } else { bound(i, 1_000_000 + i) };
    let body = Node { order: several(2 * n, |i| i % 3), ..plain(several(n, field)) };
    let scene =
        root(vec![node(Origin::Proto(0), vec![]), body], vec![proto(several(9, declared), mention([1]))], mention([0]));
    call(scene, START + 3 * n + 18 + INSTANCE)
}

fn marks_of_one_node(n: u32) -> Call {
    call(Scene { max_depth: DEPTH, ..large::marks(n) }, START + 2 * n)
}

fn marks_past(n: u32) -> Call {
    call(Scene { max_depth: DEPTH, ..large::past(n) }, START + n + 10)
}

/// n routes in a body, of n nodes.
fn routes_in_body(n: u32) -> Call {
    let mut list = several(n, |_| plain(vec![]));
    list.push(node(Origin::Proto(0), vec![]));
    let body = mention(0..n).into_iter().chain((0..n).map(|i| route(i, n - 1 - i))).collect();
    call(root(list, vec![proto(vec![], body)], mention([n])), START + 4 * n + 3)
}

/// n routes in a node and n at the top, of n nodes.
fn routes_in_node(n: u32) -> Call {
    let mut list = several(n, |_| plain(vec![]));
    list[0].statements = several(n, |i| route(i, n - 1 - i));
    let top = mention(0..n).into_iter().chain((0..n).map(|i| route(i, n - 1 - i))).collect();
    call(root(list, vec![], top), START + 5 * n)
}

/// A list of n ids handed through instances nested 250 deep.
fn handed_through(n: u32) -> Call {
    const LEVELS: u32 = 250;
    // Node p is an instance of PROTO p in the body of PROTO p - 1, which hands its own list on.
    let mut list = several(LEVELS, |p| node(Origin::Proto(p), vec![bound(5, 5)]));
    list[0].fields = vec![given_nodes(5, vec![LEVELS + 1; n as usize])];
    list.extend([plain(vec![bound(5, 5)]), plain(vec![])]);
    let protos = several(LEVELS, |p| proto(vec![interface(5, None)], mention([p + 1])));
    let scene = Scene { max_depth: 512, ..root(list, protos, mention([0])) };
    call(scene, START + 4 + 5 + (n + 4) * (LEVELS + 1))
}

/// n nested instances, each with the next as its root: 500 deep, in rows.
fn nested_roots(n: u32) -> Call {
    call(large::nested_roots(n / 500, 500, 1), START + 8 * n + 1000)
}

/// A PROTO that nests 250 deep, n times.
fn nested(n: u32) -> Call {
    call(large::nested(n / 250, 250), START + 9 * n)
}

fn flat(n: u32) -> Call {
    call(Scene { max_depth: DEPTH, ..large::flat(n) }, START + 4 * n)
}

fn four_nodes(n: u32) -> Call {
    call(Scene { max_depth: DEPTH, ..large::instances(n) }, START + 24 * n)
}

fn chains(n: u32) -> Call {
    call(large::chains(n / 500, 500), START + 5 * n)
}

/// The scenes, by what they are about.
pub fn all() -> Vec<(&'static str, Vec<Growing>)> {
    let four = |name, first, make| Growing { name, make, first, factor: 4 };
    // Charges and rows in the square of the number.
    let two = |name, first, make| Growing { name, make, first, factor: 2 };
    vec![
        (
            "names of fields and interfaces",
            vec![
                four("n fields, n interfaces, no common name", 1250, names_apart as fn(u32) -> Call),
                four("equal names, the instance in a body of a library file", 1250, names_in_file),
                four("no common name, in a body of a library file", 1250, names_in_file_apart),
                four("equal names", 1250, equal_names),
                four("equal names of one rest by twice n", 1250, names_of_one_rest),
                four("equal names, K = rows", 1250, names_without_room),
                four("equal names, K = rows, behind 7n / 18 instances of 17 fields", 500, names_behind_others),
                four("the same in a library file", 500, names_in_file_behind_others),
                four("one name on n fields, n interfaces, n IS", 1250, one_name),
                four("16 fields with n ids, n interfaces", 1250, sixteen_fields),
                four("n scopes, an instance with n ids that its PROTO has no name for", 800, ids_in_scopes),
            ],
        ),
        (
            "the journal's index",
            vec![
                four("n defaults, n IS, all names of one slot", 1250, stored_in_one_slot),
                four("n defaults, n IS", 1250, stored),
                four("one name stored n times, n IS to another of its slot", 1250, stored_behind_one_name),
                four("n defaults, n IS to other names", 1250, not_found),
                four("a name stored n times in a node's slot, the node mentioned n times", 1250, stored_over_map),
                four(
                    "a name stored n times in an extern's slot, the extern mentioned n times",
                    1250,
                    stored_over_extern,
                ),
                four("n scopes with a map entry each, all of one slot", 5000, maps_in_one_slot),
                two("n instances of n stored values, in few slots, n IS to other names", 60, families_in_few_slots),
                two("n instances of n stored values", 60, families),
                two("n instances of n nodes, in few slots", 100, maps_in_few_slots),
                four("n externs of 64 files", 3840, externs_of_files),
            ],
        ),
        (
            "picks",
            vec![
                four("n externs by fragment", 500, fragments),
                four("n externs by fragment, names of one rest", 500, fragments_of_one_rest),
                four("n externs by fragment, names that fall", 500, fragments_falling),
                four("n externs by fragment, four statements a PROTO", 500, fragments_declared_again),
                four("n externs with a fragment that is not there", 800, fragments_absent),
                four("n externs by fragment, one name", 500, fragments_of_one_name),
                four("n externs, n Proto statements that lead nowhere", 800, dangling_protos),
                four("n externs of the 257th file, another of the first", 500, second_file),
                four("5n externs without url, n nodes of one behind them, K = rows", 400, picks_without_room),
                four("the same with 20n and n instances of 17 fields", 100, picks_behind_names),
                four("n nodes of a file's extern, which picks among n PROTOs", 1000, nodes_of_a_files_extern),
                four("n urls of one extern that lead nowhere", 2000, urls_absent),
                four("n urls of one extern, n bases, n / 8 files", 2000, urls_of_bases),
                four("n files, 64 bases behind them", 500, many_files),
                four("D = 4, K = rows: n lookups of a node after one of 4n rows", 500, two_nodes_a_word),
            ],
        ),
        (
            "rows passed over for each instance",
            vec![
                four("n instances of a PROTO with n interfaces without value", 1250, events),
                four("n instances of a body with n other statements", 1250, others_in_body),
                four("n instances of a body with n ExternProto statements", 1250, externs_in_body),
                four("n instances, a default of n ids that none takes", 1000, defaults_passed_over),
                four("n instances of a node with n dropped statements", 1250, dropped_statements),
                four("n instances of a node with n dropped marks", 1250, dropped_marks),
                four("n instances of a node with an interface IS and n ids", 1250, dropped_ids),
                four("n scopes, an instance with n fields IS nothing", 800, bound_to_nothing),
            ],
        ),
        (
            "lists walked once",
            vec![
                four("2n marks, every other field dropped", 1250, order_of_kept_and_dropped),
                four("n marks of one node", 4000, marks_of_one_node),
                four("n marks past the last entry, n ids", 2000, marks_past),
                four("n routes of n nodes in a body", 1250, routes_in_body),
                four("n routes of n nodes in a node and at the top", 1000, routes_in_node),
                four("n ids handed through 250 nested instances", 60, handed_through),
                four("n instances nested 500 deep as roots", 2000, nested_roots),
                four("n instances nested 250 deep", 2000, nested),
                four("n plain nodes", 1250, flat),
                four("n instances of four nodes", 1250, four_nodes),
                four("n nodes in chains 500 deep", 1500, chains),
            ],
        ),
    ]
}
