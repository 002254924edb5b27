//! The ten flights of document 01, its example, the examples of its readings, of wish 6, wish 4 and wish 12, by their words.

use original::ast::FieldType;

use crate::call::{Answer, Call, Expanded};
use crate::reckon;
use crate::rows::{words_of, Row, EXTERN, NODE, NONE, TAGS};
use crate::scenes::MOST_CHARGES;
use crate::{spoil, versus};

/// Rows given by their leading columns; the rest is 0.
fn sheet(rows: &[&[u32]]) -> Vec<u32> {
    let row = |columns: &&[u32]| {
        let mut row: Row = [0; 8];
        row[..columns.len()].copy_from_slice(columns);
        row
    };
    words_of(&rows.iter().map(row).collect::<Vec<_>>())
}

const PLAIN: &[u32] = &[2, 7, NONE];
/// An instance of PROTO 0.
const INSTANCE: &[u32] = &[2, 8, NONE, 1, 0];
/// Field 1 with one id.
const CHILD: &[u32] = &[3, 1, 0, 0, 0, 14, 2, 1];
const DECLARED: &[u32] = &[4, 2, 14, 1, NONE];

/// A scene with its limits, what to look at, and what it must be.
struct Flight {
    what: &'static str,
    rows: Vec<u32>,
    library: Vec<u32>,
    limits: [u32; 3],
    look: fn(&Answer) -> Vec<u32>,
    expected: Vec<u32>,
}

fn refusal(answer: &Answer) -> Vec<u32> {
    answer.as_ref().map_or_else(|r| vec![r.number, r.places[0], r.places[1]], |_| vec![0, 0, 0])
}

/// Nodes, scopes, body scopes.
fn counts(answer: &Answer) -> Vec<u32> {
    answer
        .as_ref()
        .map_or(vec![], |e| vec![e.nodes, e.scopes.len() as u32, e.scopes.iter().filter(|s| s[0] == 1).count() as u32])
}

/// Nodes, scopes, charges and the words of out.
fn whole(answer: &Answer) -> Vec<u32> {
    answer.as_ref().map_or(vec![], |e| {
        let mut words = vec![e.nodes, e.scopes.len() as u32, e.charges];
        words.extend(words_of(&e.out));
        words
    })
}

/// The document of each scope, and the type of each node.
fn documents(answer: &Answer) -> Vec<u32> {
    let types = |e: &Expanded| e.out.iter().filter(|r| r[0] == NODE).map(|r| r[1]).collect::<Vec<_>>();
    answer.as_ref().map_or(vec![], |e| e.scopes.iter().map(|s| s[1]).chain(types(e)).collect())
}

fn charges(answer: &Answer) -> Vec<u32> {
    answer.as_ref().map_or(vec![], |e| vec![e.charges])
}

/// A pod I given plain P, whose child is I: from I or from P.
fn pod(start: u32) -> Vec<u32> {
    let rows: [&[u32]; 11] =
        [&[1, 5], INSTANCE, CHILD, &[9, 1], PLAIN, CHILD, &[9, 0], PLAIN, &[7, 8], DECLARED, &[5, 0, 2]];
    let mut words = sheet(&rows);
    words.extend(sheet(&[&[11], &[5, 0, start]]));
    words
}

/// Wish 6: a counter whose n, 3 by default, is bound by IS to an eventIn of the outer prototype. The counter's second
/// interface, with a default too, is given.
fn counter() -> Vec<u32> {
    sheet(&[
        &[1, 5],
        &[2, 9, NONE, 1, 1],
        &[2, 8, NONE, 1, 0],
        &[3, 1, 1, 3],
        &[3, 2, 0, 0, 0, 4, 1, 6],
        PLAIN,
        &[3, 1, 1, 1],
        &[7, 8],
        &[4, 3, 4, 1, NONE, 4, 1, 3],
        &[4, 3, 4, 2, NONE, 4, 1, 4],
        &[5, 0, 2],
        &[7, 9],
        &[4, 0, 4, 3, NONE],
        &[5, 0, 1],
        &[11],
        &[5, 0, 0],
    ])
}

/// Wish 6: a PROTO whose default holds an instance of itself, bound by IS to nothing. Before, the binding ended it.
fn default_of_itself() -> Vec<u32> {
    sheet(&[
        &[1, 5],
        INSTANCE,
        &[3, 1, 1, 1],
        PLAIN,
        &[7, 8],
        &[4, 2, 14, 1, NONE, 14, 2, 1],
        &[9, 0],
        &[5, 0, 1],
        &[11],
        &[5, 0, 0],
    ])
}

/// Wish 4: an instance of base 5's prototype, then one of base 4's.
fn two_bases() -> Vec<u32> {
    sheet(&[
        &[1, 5],
        &[2, 8, NONE, 2, 0],
        &[2, 8, NONE, 2, 1],
        &[8, 8],
        &[10, 5, NONE],
        &[8, 8],
        &[10, 4, NONE],
        &[11],
        &[5, 0, 0],
        &[5, 0, 1],
    ])
}

/// Wish 4: three files of base 5, one of base 4 between them. The n-th has a node of type 60 + n.
fn corrected() -> Vec<u32> {
    let file =
        |n: u32, base: u32| sheet(&[&[12, base], &[1, 5], &[2, 60 + n, NONE], &[7, 8], &[5, 0, 0], &[11], &[5, 1, 0]]);
    [file(1, 5), file(2, 5), file(3, 4), file(4, 5)].concat()
}

/// Wish 12: a file of a base, whose PROTO's body is a node of type 60 + n with an instance of the base that it names in turn.
fn naming(n: u32, base: u32, next: u32) -> Vec<u32> {
    sheet(&[
        &[12, base],
        &[1, 5],
        &[2, 60 + n, NONE],
        CHILD,
        &[9, 1],
        &[2, 8, NONE, 2, 0],
        &[7, 8],
        &[5, 0, 0],
        &[8, 8],
        &[10, next, NONE],
        &[11],
        &[5, 1, 0],
    ])
}

/// Wish 12: file 1 names base 2; file 2 names a base without a file.
fn chain() -> Vec<u32> {
    [naming(1, 1, 2), naming(2, 2, 9)].concat()
}

/// An instance of base 1's prototype.
fn one_base() -> Vec<u32> {
    sheet(&[&[1, 5], &[2, 8, NONE, 2, 0], &[8, 8], &[10, 1, NONE], &[11], &[5, 0, 0]])
}

/// Wish 12: an instance of base 1's prototype, by a fragment or not, and one of base 2's, behind so many bases without a file.
fn behind_bases(count: u32, fragment: u32) -> Vec<u32> {
    let mut words = sheet(&[&[1, 5], &[2, 8, NONE, 2, 0], &[2, 8, NONE, 2, 1], &[8, 8], &[10, 1, fragment], &[8, 8]]);
    (0..count).for_each(|i| words.extend(sheet(&[&[10, 100 + i, NONE]])));
    words.extend(sheet(&[&[10, 2, NONE], &[11], &[5, 0, 0], &[5, 0, 1]]));
    words
}

/// Wish 12: file 1 names base 3, file 2 base 4; files 3 and 4 name a base without a file.
fn two_by_two() -> Vec<u32> {
    [naming(1, 1, 3), naming(2, 2, 4), naming(3, 3, 9), naming(4, 4, 9)].concat()
}

/// Wishes 1 and 12: a file whose PROTO's body declares the file's extern; its second url leads to base 2.
fn marked() -> Vec<u32> {
    let rows: [&[u32]; 11] = [
        &[12, 1],
        &[1, 5],
        &[2, 61, NONE],
        &[7, 8],
        &[5, 0, 0],
        &[5, 2, 0],
        &[8, 8],
        &[10, 9, NONE],
        &[10, 2, NONE],
        &[11],
        &[5, 1, 0],
    ];
    [sheet(&rows), naming(2, 2, 9)].concat()
}

fn flights() -> Vec<Flight> {
    let free = [400, 64, MOST_CHARGES];
    let flight =
        |what, rows, limits, look, expected| Flight { what, rows, library: Vec::new(), limits, look, expected };
    let one = sheet(&[&[1, 5], PLAIN, &[11], &[5, 0, 0]]);
    let child = |id| [CHILD.to_vec(), vec![9, id]];
    let [field, first] = child(1);
    let [_, second] = child(2);
    let three = sheet(&[&[1, 5], PLAIN, &field, &first, PLAIN, &field, &second, PLAIN, &[11], &[5, 0, 0]]);
    let two_instances = |top: &[&[u32]]| {
        let mut rows: Vec<&[u32]> = vec![&[1, 5], INSTANCE, INSTANCE, PLAIN, &[7, 8], &[5, 0, 2], &[11]];
        rows.extend(top);
        sheet(&rows)
    };
    let rootless = sheet(&[&[1, 5], INSTANCE, &[7, 8], &[11], &[5, 0, 0]]);
    let mut example = vec![1, 1, 6];
    example.extend(&one);
    // Charges: 3 at the start, 3 scopes, 2 stored values, 2 of a plain copy, an association, a field, 2 map entries, 2 records
    // and a statement.
    let with = |library: Vec<u32>, flight: Flight| Flight { library, ..flight };
    let circle = || [naming(1, 1, 2), naming(2, 2, 1)].concat();
    // Charges: 3 at the start, a scope, 2 of a plain copy, a map entry, 3 of the extern, a record and a statement.
    let mut mark = vec![1, 2, 12];
    let rows: [&[u32]; 8] =
        [&[1, 5], &[2, 61, NONE], &[13, 8], &[8, 8], &[10, 9, NONE], &[10, 2, NONE, 1], &[11], &[5, 0, 0]];
    mark.extend(sheet(&rows));
    let mut kept_start = vec![1, 4, 17];
    kept_start.extend(sheet(&[&[1, 5], PLAIN, &[3, 1, 0, 0, 0, 4, 1, 3], &[13, 9], &[11], &[5, 0, 0]]));
    vec![
        flight("no statements", sheet(&[&[1, 5], &[11]]), free, counts, vec![0, 1, 0]),
        flight("one plain node, N = 0", one.clone(), [0, 64, MOST_CHARGES], refusal, vec![8, 0, 0]),
        flight("D = 0, N = 0", one.clone(), [0, 0, MOST_CHARGES], refusal, vec![9, 0, 0]),
        flight("three nested, D = 2", three.clone(), [400, 2, MOST_CHARGES], refusal, vec![9, 0, 0]),
        flight("three nested, D = 3", three, [400, 3, MOST_CHARGES], counts, vec![3, 1, 0]),
        flight(
            "one node mentioned twice",
            sheet(&[&[1, 5], PLAIN, &[11], &[5, 0, 0], &[5, 0, 0]]),
            free,
            counts,
            vec![1, 1, 0],
        ),
        flight("one instance mentioned twice", two_instances(&[&[5, 0, 0], &[5, 0, 0]]), free, counts, vec![1, 2, 1]),
        flight("two instances of it", two_instances(&[&[5, 0, 0], &[5, 0, 1]]), free, counts, vec![2, 3, 2]),
        flight("the pod from I", pod(0), free, counts, vec![3, 3, 2]),
        flight("the pod from P", pod(1), free, counts, vec![2, 2, 1]),
        flight("the pod from I, charges", pod(0), free, charges, vec![22]),
        flight("a body without Node", rootless.clone(), free, refusal, vec![7, 0, 0]),
        flight("the example", one, [400, 64, 400], whole, example),
        flight("7 after the body scope's charge, K = 3", rootless.clone(), [0, 1, 3], refusal, vec![10, 0, 0]),
        flight("7 after the body scope's charge, K = 4", rootless, [0, 1, 4], refusal, vec![7, 0, 0]),
        flight("an empty root", vec![], free, refusal, vec![3, 0, 0]),
        flight("an event-driven counter keeps its start", counter(), free, whole, kept_start),
        flight("a default that holds its own PROTO", default_of_itself(), free, refusal, vec![9, 0, 0]),
        flight("the same at the cap of D", default_of_itself(), [400, 512, MOST_CHARGES], refusal, vec![9, 0, 0]),
        with(
            corrected(),
            flight("the last of three files of one base", two_bases(), free, documents, vec![0, 4, 3, 64, 63]),
        ),
        with(chain(), flight("a file that names another", one_base(), free, documents, vec![0, 1, 2, 61, 62, 8])),
        with(circle(), flight("a circle of two files", one_base(), free, refusal, vec![9, 0, 0])),
        with(circle(), flight("the same, few nodes", one_base(), [20, 64, MOST_CHARGES], refusal, vec![8, 0, 0])),
        with(circle(), flight("the same, few charges", one_base(), [400, 64, 60], refusal, vec![10, 0, 0])),
        with(
            circle(),
            flight("the same at the cap of D", one_base(), [400, 512, MOST_CHARGES], refusal, vec![9, 0, 0]),
        ),
        with(naming(1, 1, 1), flight("a file that names itself", one_base(), free, refusal, vec![9, 0, 0])),
        with(
            two_by_two(),
            flight("one place left", behind_bases(61, NONE), free, documents, vec![0, 1, 3, 2, 61, 63, 8, 62, 8]),
        ),
        with(
            two_by_two(),
            flight(
                "two places left, for both files of the root",
                behind_bases(60, NONE),
                free,
                documents,
                vec![0, 1, 3, 2, 4, 61, 63, 8, 62, 64, 8],
            ),
        ),
        with(
            two_by_two(),
            flight("no place left", behind_bases(62, NONE), free, documents, vec![0, 1, 2, 61, 8, 62, 8]),
        ),
        with(
            two_by_two(),
            flight(
                "the last place for a file without a pick",
                behind_bases(61, 99),
                free,
                documents,
                vec![0, 2, 8, 62, 8],
            ),
        ),
        with(
            [naming(1, 1, 9), naming(2, 2, 4), naming(4, 4, 9)].concat(),
            flight(
                "the last place for a file's base without a file",
                behind_bases(61, NONE),
                free,
                documents,
                vec![0, 1, 2, 61, 8, 62, 8],
            ),
        ),
        with(marked(), flight("a mark in a file", one_base(), free, whole, mark)),
    ]
}

/// The flights' calls, with a limit of charges that is no more than this.
pub fn calls(most_rows: u32) -> Vec<Call> {
    let call = |f: Flight| Call::new(f.rows, f.library, f.limits[0], f.limits[1], f.limits[2].min(most_rows));
    flights().into_iter().map(call).collect()
}

/// The calls of wish 12's flights alone.
pub fn of_wish_12(most_rows: u32) -> Vec<Call> {
    calls(most_rows).into_iter().filter(|c| c.library.chunks(8).any(|row| row[0] == EXTERN)).collect()
}

/// Every flight, against its words and against the original. The number that fail.
pub fn run() -> u64 {
    let flights = flights();
    let mut wrong = (FieldType::ALL.len() != TAGS as usize) as u64;
    let (mut compared, mut by_is, mut linked) = (0, 0, 0);
    for f in &flights {
        let [nodes, depth, rows] = f.limits;
        let call = Call::new(f.rows.clone(), f.library.clone(), nodes, depth, rows);
        let reckoned = reckon::reckon(&call, None);
        let got = (f.look)(&reckoned.answer);
        let original = versus::held(&call, &reckoned);
        compared += versus::has_original(&reckoned) as u64;
        linked += reckoned.linked as u64;
        by_is += reckoned.bound.takes_default() as u64;
        let original = original.unwrap_or(Ok(()));
        if got != f.expected || original.is_err() {
            wrong += 1;
            println!("{}: expected {:?}, got {got:?}; {original:?}", f.what, f.expected);
        }
    }
    println!("{} flights, {compared} with the original, {wrong} wrong", flights.len());
    println!("with a default because of an IS to nothing {by_is}, with externs in the library's files {linked}");
    let call = |rows, library| Call::new(rows, library, 400, 64, MOST_CHARGES);
    wrong
        + spoil::run(&call(pod(1), Vec::new()), spoil::POD)
        + spoil::run(&call(counter(), Vec::new()), spoil::COUNTER)
        + spoil::run(&call(one_base(), chain()), spoil::CHAIN)
}
