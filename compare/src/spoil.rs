//! Accepted answers spoilt on purpose: the check of demand 3 must refuse each.

use crate::call::{Call, Expanded};
use crate::rows::{ID, INSTANCE, NODE, NONE, STATEMENT, TOP};
use crate::{closure, reckon};

type Spoil = (&'static str, fn(&mut Expanded));

/// What is done to the answer of `flights::pod` from P.
pub const POD: &[Spoil] = &[
    ("a ledger entry is missing", |e| e.ledger.truncate(1)),
    ("a ledger entry stands twice", |e| e.ledger.push(e.ledger[0])),
    ("a ledger entry stands for another", |e| e.ledger[1] = e.ledger[0]),
    ("a ledger entry names another scope", |e| e.ledger[1][0] = 0),
    ("a ledger entry names an instance", |e| e.ledger[1] = [0, 0, 0]),
    ("a scope is missing", |e| {
        e.scopes.truncate(1);
        e.instances.truncate(1);
    }),
    ("a scope stands twice", |e| twice(e, 1)),
    ("a scope names another PROTO", |e| e.scopes[1][2] = 1),
    ("a scope is opened by itself", |e| e.scopes[1][4] = 1),
    ("the root scope comes second", |e| e.scopes.swap(0, 1)),
    ("the node count is one more", |e| e.nodes += 1),
    ("the output is empty", |e| e.out.truncate(1)),
    ("a Proto statement is left", |e| e.out.push([STATEMENT, 1, 0, 0, 0, 0, 0, 0])),
    ("a node of origin Proto is left", |e| row(e, NODE)[3] = 1),
    ("an id is not below the node count", |e| row(e, ID)[1] = 2),
    ("a node holds another statement", |e| {
        let at = e.out.iter().position(|r| r[0] == INSTANCE || r[0] == TOP).unwrap();
        e.out.insert(at, [STATEMENT, 4, NONE, 0, 0, 0, 0, 0]);
    }),
];

/// What is done to the answer of `flights::counter`: scope 2 is the default that an IS to nothing takes.
pub const COUNTER: &[Spoil] = &[
    ("a default scope is missing", |e| {
        e.scopes.remove(2);
        e.instances.remove(2);
        e.ledger.iter_mut().filter(|entry| entry[0] > 2).for_each(|entry| entry[0] -= 1);
    }),
    ("a default scope stands twice", |e| twice(e, 2)),
    ("a default scope names another interface", |e| e.scopes[2][3] = 1),
    ("a default scope is opened by the root", |e| e.scopes[2][4] = 0),
    ("a body scope names another instance", |e| e.instances[3] = 0),
];

/// What is done to the answer of `flights::chain`: scope 2 is the body of the file that the first file names.
pub const CHAIN: &[Spoil] = &[
    ("an ExternProto instance of a file is left", |e| e.ledger[1] = [1, 1, 1]),
    ("the second file's scope is missing", |e| {
        e.scopes.truncate(2);
        e.instances.truncate(2);
    }),
    ("the second file's scope names the first", |e| e.scopes[2][1] = 1),
    ("the second file's scope is opened by the root", |e| e.scopes[2][4] = 0),
    ("a node of the second file is told of the first", |e| e.ledger[1][1] = 1),
];

/// The scope of a number stands at the end of the list once more.
fn twice(answer: &mut Expanded, scope: usize) {
    answer.scopes.push(answer.scopes[scope]);
    answer.instances.push(answer.instances[scope]);
}

/// The first output row of a kind.
fn row(answer: &mut Expanded, kind: u32) -> &mut [u32; 8] {
    answer.out.iter_mut().find(|r| r[0] == kind).unwrap()
}

/// Every spoilt answer of a call; the number that pass for sound.
pub fn run(call: &Call, spoils: &[Spoil]) -> u64 {
    let sound = reckon::expand(call, None).expect("an accepted call");
    let mut missed = closure::check(call, &sound).is_err() as u64;
    for (what, spoil) in spoils {
        let mut answer = sound.clone();
        answer.charges += 10;
        spoil(&mut answer);
        if closure::check(call, &answer).is_ok() {
            missed += 1;
            println!("not noticed: {what}");
        }
    }
    println!("{} spoilt answers, {missed} not noticed", spoils.len());
    missed
}
