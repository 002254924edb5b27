//! A search for scenes that grow too much: random mixtures of what the code searches and walks, with names and ids by
//! progressions, powers of two, multiples of the slots and spans, digits exchanged.

use std::time::{Duration, Instant};

use super::slots::{name_at, slots, spread};
use super::{growth, once, time, time_after, Taken, STOPS, WANTED};
use crate::bench::show;
use crate::call::Call;
use crate::random::Random;
use crate::rows::MOST_ROWS;
use crate::scenes::large::{mention, node};
use crate::scenes::Scene;
use crate::tree::*;

/// The parts of a mixture; each has an amount.
const PARTS: [&str; 24] = [
    "instances",
    "PROTOs",
    "fields of an instance",
    "ids of such a field",
    "interfaces of a PROTO",
    "ids of a default",
    "nodes of a body",
    "IS of such a node",
    "values of such a node",
    "ids of an interface IS of such a node",
    "dropped statements of such a node",
    "marks of such a node",
    "other statements of a body",
    "ExternProto statements of a body",
    "routes of a body",
    "outer instances",
    "interfaces of the outer PROTO",
    "further mentions of a node",
    "further mentions of an extern",
    "externs without url",
    "externs with urls",
    "urls of one",
    "PROTOs of their file",
    "further nodes",
];
const INSTANCES: usize = 0;
const PROTOS: usize = 1;
const FIELDS: usize = 2;
const FIELD_IDS: usize = 3;
const INTERFACES: usize = 4;
const DEFAULT_IDS: usize = 5;
const BODY: usize = 6;
const BOUND: usize = 7;
const VALUES: usize = 8;
const INTERFACE_IDS: usize = 9;
const DROPPED: usize = 10;
const MARKS: usize = 11;
const OTHERS: usize = 12;
const EXTERN_STATEMENTS: usize = 13;
const ROUTES: usize = 14;
const OUTER: usize = 15;
const OUTER_INTERFACES: usize = 16;
const MENTIONS: usize = 17;
const EXTERN_MENTIONS: usize = 18;
const BARE_EXTERNS: usize = 19;
const EXTERNS: usize = 20;
const URLS: usize = 21;
const FILE_PROTOS: usize = 22;
const FURTHER: usize = 23;

/// Amounts over n: these, then the square root, n and four times n.
const FEW: [u32; 5] = [0, 1, 2, 9, 17];

/// What is named.
const NAMED: [&str; 6] = ["fields", "interfaces", "IS", "body nodes", "fragments", "PROTOs of the file"];
const FIELD: usize = 0;
const INTERFACE: usize = 1;
const TARGET: usize = 2;
const NODE: usize = 3;
const FRAGMENT: usize = 4;
const PROTO: usize = 5;

/// How names are made, over i.
const WAYS: [&str; 11] = [
    "i",
    "1,000,000 + i",
    "backwards",
    "one",
    "powers of two",
    "steps of 2^k",
    "of one slot",
    "others of that slot",
    "of one rest",
    "slots upwards by the steps of an instance",
    "slots downwards",
];

const CHOICES: [(&str, usize); 6] = [
    ("fields: payload, ids, IS", 3),
    ("defaults: none, payload, ids", 3),
    ("in a file", 2),
    ("depth 4, 11, 16, 64", 4),
    ("K: rows or charges, half more", 2),
    ("files before the externs' one: none, 256", 2),
];
const FIELD_VALUE: usize = 0;
const DEFAULT_VALUE: usize = 1;
const IN_FILE: usize = 2;
const DEPTH: usize = 3;
const ROOM: usize = 4;
const BEFORE: usize = 5;

/// A mixture: an amount for each part, a way for each that is named, and what else is chosen.
#[derive(Clone)]
struct Mixture {
    amounts: [usize; PARTS.len()],
    ways: [usize; NAMED.len()],
    choices: [usize; CHOICES.len()],
    shift: u32,
}

/// Where a mixture is made: its number, the slots, and the charges of an instance.
struct At {
    n: u32,
    slots: u64,
    step: u64,
}

fn payload() -> Value {
    Value::Payload { tag: 4, number: 1 }
}

/// What no charge pays for.
const UNCHARGED: [usize; 7] = [OTHERS, EXTERN_STATEMENTS, DROPPED, MARKS, INTERFACE_IDS, FIELD_IDS, DEFAULT_IDS];

impl Mixture {
    /// A random mixture; `charged`: without rows that an instance passes over and that no charge pays for.
    fn random(r: &mut Random, charged: bool) -> Mixture {
        let mut amounts = [0; PARTS.len()];
        // Mostly few parts are there at all, so that what is large stands out.
        let share = r.of(&[15, 30, 50]);
        for amount in &mut amounts {
            if r.percent(share) {
                *amount = r.of(&[1, 2, 3, 4, 5, 5, 6, 6, 6, 7]);
            }
        }
        amounts[INSTANCES] = amounts[INSTANCES].max(1);
        amounts[PROTOS] = amounts[PROTOS].clamp(1, 6);
        amounts[BODY] = amounts[BODY].max(1);
        let mut ways = [0; NAMED.len()];
        ways.iter_mut().for_each(|w| *w = r.below(WAYS.len()));
        let mut choices = [0; CHOICES.len()];
        choices.iter_mut().zip(CHOICES).for_each(|(c, (_, many))| *c = r.below(many));
        if charged {
            UNCHARGED.iter().for_each(|part| amounts[*part] = 0);
            choices[DEFAULT_VALUE] = 1;
            choices[FIELD_VALUE] = 0;
        }
        Mixture { amounts, ways, choices, shift: r.below(17) as u32 }
    }

    fn amount(&self, at: &At, part: usize) -> u32 {
        match self.amounts[part] {
            few if few < FEW.len() => FEW[few],
            5 => at.n.isqrt(),
            6 => at.n,
            _ => 4 * at.n,
        }
    }

    /// The `i`-th name of what has so many.
    fn name(&self, at: &At, named: usize, count: u32, i: u32) -> u32 {
        let (slots, i, count) = (at.slots, i as u64, count.max(1) as u64);
        let name = match self.ways[named] {
            0 => i,
            1 => 1_000_000 + i,
            2 => count - 1 - i,
            3 => 5,
            4 => 1 << (i % 31),
            5 => i << (self.shift % 17) & 0x7FFF_FFFF,
            6 => name_at(slots, 0, 0, i) as u64,
            7 => name_at(slots, 0, 0, count + i) as u64,
            8 => (2 * count + (named >= FRAGMENT) as u64) * i % 0xFFFF_0000,
            9 => name_at(slots, 0, 2 * at.step * i % slots, 0) as u64,
            _ => name_at(slots, 0, slots - 2 * at.step * i % slots, self.shift as u64 % 2) as u64,
        };
        name as u32
    }

    fn value(&self, choice: usize, ids: u32, id: u32) -> Option<Value> {
        match choice {
            0 => None,
            1 => Some(payload()),
            _ => Some(Value::Nodes { tag: 14, ids: vec![id; ids as usize] }),
        }
    }

    /// The document with the PROTOs, and the id of the one whose body has the instances.
    fn document(&self, at: &At) -> (Doc, u32) {
        let many = |part| self.amount(at, part);
        let [instances, protos, body] = [INSTANCES, PROTOS, BODY].map(many);
        let further = many(FURTHER);
        // Nodes of the body first, among the further ones; then the instances.
        let count = body.max(further);
        let mut nodes: Vec<Node> = (0..count).map(|_| node(Origin::Builtin, vec![])).collect();
        let id = |i| match self.ways[NODE] {
            0..=8 => self.name(at, NODE, body, i) % count,
            9 => (spread(2 * at.step * i as u64) % count as u64) as u32,
            _ => (spread(2 * at.step * (body - 1 - i) as u64) % count as u64) as u32,
        };
        let contents = Node {
            fields: (0..many(BOUND))
                .map(|i| Binding::Is(self.name(at, TARGET, many(INTERFACES), i)))
                .chain((0..many(VALUES)).map(|_| Binding::Value(payload())))
                .zip(0..)
                .map(|(binding, name)| Field { name, binding, inferred: 0 })
                .collect(),
            interfaces: match many(INTERFACE_IDS) {
                0 => vec![],
                ids => vec![Interface { access: 3, tag: 4, name: 1, is: Some(1), value: self.value(2, ids, 0) }],
            },
            statements: (0..many(DROPPED)).map(Statement::Other).collect(),
            order: (0..many(MARKS)).map(|i| i % 3).collect(),
            ..node(Origin::Builtin, vec![])
        };
        nodes[id(0) as usize] = contents.clone();
        nodes[id(body / 2) as usize] = contents;
        let fields = many(FIELDS);
        let field = |i| Field {
            name: self.name(at, FIELD, fields, i),
            binding: match self.choices[FIELD_VALUE] {
                0 => Binding::Value(payload()),
                1 => Binding::Value(self.value(2, many(FIELD_IDS), id(0)).unwrap()),
                _ => Binding::Is(self.name(at, TARGET, many(OUTER_INTERFACES), i)),
            },
            inferred: 0,
        };
        // Where there are many instances, only one has all the fields, so that the rows stay in bounds.
        let some = |j: u32| if j == 0 || fields as u64 * instances as u64 <= 8 * at.n as u64 { fields } else { 1 };
        let instance = |j: u32| node(Origin::Proto(j % protos), (0..some(j).min(fields)).map(field).collect());
        nodes.extend((0..instances).map(instance));
        let interfaces = |count: u32, choice| {
            let interface = |i| Interface {
                access: 3,
                tag: 4,
                name: self.name(at, INTERFACE, count, i),
                is: None,
                value: self.value(choice, many(DEFAULT_IDS), id(0)),
            };
            (0..count).map(interface).collect::<Vec<_>>()
        };
        let default = self.choices[DEFAULT_VALUE];
        let route = |i| Statement::Route(Route { names: [1, 2, 3, i], from: Some(id(0)), to: Some(i) });
        let statements = || {
            mention((0..body).map(id))
                .into_iter()
                .chain((0..many(OTHERS)).map(Statement::Other))
                .chain((0..many(EXTERN_STATEMENTS)).map(|_| Statement::Extern(0)))
                .chain((0..many(ROUTES)).map(route))
                .collect()
        };
        let each = if protos as u64 * many(INTERFACES) as u64 <= 8 * at.n as u64 { many(INTERFACES) } else { 1 };
        let mut list: Vec<Proto> =
            (0..protos).map(|p| Proto { name: p, interfaces: interfaces(each, default), body: statements() }).collect();
        let outer = interfaces(many(OUTER_INTERFACES), 1);
        list.push(Proto { name: protos, interfaces: outer, body: mention(count..count + instances) });
        let externs = vec![Extern { name: 3, interfaces: vec![], urls: vec![] }];
        (Doc { header: 5, nodes, protos: list, externs, top: vec![Statement::Proto(protos)] }, protos)
    }

    fn scene(&self, at: &At) -> Scene {
        let many = |part| self.amount(at, part);
        let (doc, outer) = self.document(at);
        let mut files = Vec::new();
        let mut root = Doc { header: 5, ..Doc::default() };
        let mut externs = vec![Extern { name: 3, interfaces: vec![], urls: vec![(1, None)] }];
        let wrap = self.choices[IN_FILE] == 1;
        let instances = many(OUTER);
        if wrap {
            root.nodes = (0..instances.max(1)).map(|_| node(Origin::Extern(0), vec![])).collect();
            root.top = mention(0..instances.max(1));
            files.push(File { base: 1, doc });
        } else {
            let count = doc.nodes.len() as u32;
            let own = self.amount(at, INSTANCES);
            root = Doc { top: vec![], ..doc };
            root.nodes.extend((0..instances).map(|_| node(Origin::Proto(outer), vec![])));
            root.top = mention(if instances == 0 { count - own..count } else { count..count + instances });
        }
        externs.extend((0..many(BARE_EXTERNS)).map(|_| Extern { name: 3, interfaces: vec![], urls: vec![] }));
        let (picked, protos) = (many(EXTERNS), many(FILE_PROTOS));
        let urls = |i| {
            let url = |u| (2, Some(self.name(at, FRAGMENT, protos, i + u)));
            (0..if i == 0 { many(URLS) } else { 1 }).map(url).collect()
        };
        let first = externs.len() as u32;
        externs.extend((0..picked).map(|i| Extern { name: 3, interfaces: vec![], urls: urls(i) }));
        if picked > 0 {
            let small = |base| File { base, doc: Doc { header: 5, ..Doc::default() } };
            files.extend((0..256 * self.choices[BEFORE] as u32).map(|_| small(1 + 8 * wrap as u32)));
            let named = |i| Proto { name: self.name(at, PROTO, protos, i), interfaces: vec![], body: mention([0]) };
            let doc = Doc {
                header: 5,
                nodes: vec![node(Origin::Builtin, vec![])],
                protos: (0..protos).map(named).collect(),
                externs: vec![],
                top: (0..protos).map(Statement::Proto).collect(),
            };
            files.push(File { base: 2, doc });
            let from = root.nodes.len() as u32;
            root.nodes.extend((0..picked).map(|i| node(Origin::Extern(first + i), vec![])));
            root.top.extend(mention(from..from + picked));
        }
        root.externs = externs;
        root.top.extend((0..many(EXTERN_MENTIONS)).map(|_| Statement::Extern(0)));
        let again = root.top.first().cloned();
        root.top.extend((0..many(MENTIONS)).filter_map(|_| again.clone()));
        let max_depth = [4, 11, 16, 64][self.choices[DEPTH]];
        Scene { root, files, max_nodes: 4_000_000, max_depth }
    }

    /// The call over n, its K the charges or the rows; nothing where it would be too large.
    fn call(&self, n: u32, most: u32) -> Option<Call> {
        let mut at = At { n, slots: 1 << 20, step: 6 };
        // Too many rows are told before they are made.
        let per = |part| self.amount(&at, part) as u64;
        let body =
            per(BODY) + per(OTHERS) + per(EXTERN_STATEMENTS) + per(ROUTES) + per(INTERFACES) * (1 + per(DEFAULT_IDS));
        let rows =
            per(PROTOS) * body + per(FIELDS) * (1 + per(FIELD_IDS)) + per(OUTER_INTERFACES) * (1 + per(DEFAULT_IDS));
        if rows > MOST_ROWS as u64 / 2 || self.amount(&at, FIELDS) as u64 * per(INSTANCES) > 64 * n as u64 * 17 {
            return None;
        }
        let mut call = self.scene(&at).call(most);
        if call.root.len() / 8 > MOST_ROWS || call.library.len() / 8 > MOST_ROWS || call.size() as u32 > most {
            return None;
        }
        // The names do not change the charges, but where they are equal or not: found by a first call.
        let first = once(&call);
        if first.refusal == 10 {
            return None;
        }
        let scopes = (self.amount(&at, INSTANCES) * self.amount(&at, OUTER).max(1)).max(1);
        at.step = (first.charges / scopes).max(1) as u64;
        let enough = first.charges.max(call.size() as u32);
        let room = (if self.choices[ROOM] == 1 { enough + enough / 2 } else { enough }).min(most);
        at.slots = slots(room, call.max_depth);
        call = self.scene(&at).call(room);
        Some(Call::new(call.root, call.library, room.min(4_000_000), call.max_depth, room))
    }

    fn show(&self) -> String {
        let mut words: Vec<String> = Vec::new();
        for (part, amount) in PARTS.iter().zip(self.amounts).filter(|(_, a)| *a > 0) {
            let amount = match amount {
                few if few < FEW.len() => FEW[few].to_string(),
                5 => "√n".into(),
                6 => "n".into(),
                _ => "4n".into(),
            };
            words.push(format!("{part} {amount}"));
        }
        for (named, way) in NAMED.iter().zip(self.ways).filter(|(_, w)| *w > 0) {
            words.push(format!("{named} {}", WAYS[way]));
        }
        for ((choice, _), taken) in CHOICES.iter().zip(self.choices) {
            words.push(format!("{choice}: {taken}"));
        }
        words.join("; ")
    }
}

/// The number and the most charges of the search's scenes.
const NUMBER: u32 = 400;
const MOST: u32 = 800_000;
/// Seconds from which on a time tells.
const TELLING: f64 = 0.003;

struct Found {
    mixture: Mixture,
    growth: f64,
    small: Taken,
    large: Taken,
}

/// How a mixture grows; nothing where it is too large or its times too short.
fn grown(mixture: &Mixture) -> Option<Found> {
    let large_call = mixture.call(4 * NUMBER, MOST)?;
    let small_call = mixture.call(NUMBER, MOST)?;
    let mut small = time(&small_call);
    let large = time_after(Some((&small_call, &mut small)), &large_call);
    let refusals = [small.refusal, large.refusal].iter().any(|r| !matches!(r, 0 | 10));
    if refusals || large.seconds < TELLING {
        return None;
    }
    Some(Found { mixture: mixture.clone(), growth: growth(&small, &large), small, large })
}

/// The mixture with as little in it as grows as much.
fn smaller(mut found: Found, until: Instant) -> Found {
    let mut at = 0;
    let tries = PARTS.len() + NAMED.len() + CHOICES.len();
    while at < tries && Instant::now() < until {
        let mut mixture = found.mixture.clone();
        let (amounts, ways) = (PARTS.len(), PARTS.len() + NAMED.len());
        let value = match at {
            i if i < amounts => &mut mixture.amounts[i],
            i if i < ways => &mut mixture.ways[i - amounts],
            i => &mut mixture.choices[i - ways],
        };
        let least = [INSTANCES, PROTOS, BODY].contains(&at) as usize;
        if *value > least {
            *value = least;
            if let Some(less) = grown(&mixture).filter(|f| f.growth > 0.8 * found.growth) {
                found = less;
            }
        }
        at += 1;
    }
    found
}

fn print(found: &Found) {
    println!(
        "growth {:.1}: {} to {}, {} to {} rows, {} to {} charges{}",
        found.growth,
        show(found.small.seconds),
        show(found.large.seconds),
        found.small.rows,
        found.large.rows,
        found.small.charges,
        found.large.charges,
        if found.large.refusal == 10 { ", refused 10" } else { "" },
    );
    println!("    {}", found.mixture.show());
}

/// Random mixtures for so many seconds: the worst growth of four times n, and the least mixtures of those that are not wanted.
/// `charged`: only of what charges pay for.
pub fn run(seconds: u64, seed: u64, charged: bool) -> u64 {
    let end = Instant::now() + Duration::from_secs(seconds);
    let (mut tried, mut timed, mut bad) = (0, 0, 0);
    let mut worst: Option<Found> = None;
    while Instant::now() < end {
        let mixture = Mixture::random(&mut Random::new(seed, tried), charged);
        tried += 1;
        let Some(found) = grown(&mixture) else { continue };
        timed += 1;
        let record = worst.as_ref().is_none_or(|w| found.growth > w.growth);
        if found.growth > STOPS && bad < 12 || found.growth > WANTED && record {
            bad += (found.growth > STOPS) as u64;
            println!("case {} of seed {seed}", tried - 1);
            print(&found);
            let least = smaller(found, Instant::now() + Duration::from_secs(20));
            print(&least);
            if worst.as_ref().is_none_or(|w| least.growth > w.growth) {
                worst = Some(least);
            }
        } else if record {
            worst = Some(found);
        }
    }
    println!("{tried} mixtures, {timed} of them timed; the worst growth:");
    if let Some(worst) = &worst {
        print(worst);
    }
    (worst.is_some_and(|w| w.growth > STOPS)) as u64
}
