//! Calls with the same sheets and different limits, all within their caps and with slices that are long enough.

use super::{damage, families, free, large};
use crate::call::{Call, MOST_CHARGES, MOST_DEPTH, MOST_NODES};
use crate::flights;
use crate::random::Random;
use crate::reckon;

/// N, D, K.
pub type Limits = [u32; 3];

pub const CAPS: Limits = [MOST_NODES, MOST_DEPTH, MOST_CHARGES];
/// Enough for most scenes.
const GENEROUS: Limits = [600, 64, 3000];
/// The most words lent beyond what a call needs.
const SPARE: usize = 40;

pub fn limits(call: &Call) -> Limits {
    [call.max_nodes, call.max_depth, call.max_rows]
}

/// The same sheets with other limits, and slices of just the lengths that these need.
pub fn with(call: &Call, [nodes, depth, rows]: Limits) -> Call {
    Call::new(call.root.clone(), call.library.clone(), nodes, depth, rows)
}

/// The limits with one of them changed.
fn changed(limits: Limits, which: usize, to: u32) -> Limits {
    let mut changed = limits;
    changed[which] = to;
    changed
}

/// The calls of a number. The first one's limits are around the least that its answer takes. Of the others three have one limit
/// larger, one has all three as large as these, one has longer slices.
pub fn calls(seed: u64, number: u64) -> Vec<Call> {
    let mut r = Random::new(seed ^ 0x0070_6169_7273, number);
    let sheets = sheets(&mut r);
    let least = least(&sheets);
    let first = least.map(|n| match r.below(10) {
        0..=4 => n,
        5 => n + r.range(1, 3) as u32,
        6 => n + r.below(40) as u32,
        7 | 8 => n.saturating_sub(1),
        _ => r.below(n as usize + 1) as u32,
    });
    let larger = [0, 1, 2].map(|which| {
        let limit = match r.below(5) {
            0 => first[which] + 1,
            1 => least[which] + r.below(3) as u32,
            2 => GENEROUS[which],
            // A limit of which few bits are left where it is cut.
            3 => 1 << r.range(6, 12),
            _ if which == 1 => MOST_DEPTH,
            _ => first[which] + r.range(1, 200) as u32,
        };
        limit.clamp(first[which], CAPS[which])
    });
    let alone = [0, 1, 2].map(|which| changed(first, which, larger[which]));
    let mut calls: Vec<Call> = [first].iter().chain(&alone).chain([&larger]).map(|l| with(&sheets, *l)).collect();
    let mut longer = calls[0].clone();
    longer.lent = longer.lent.map(|n| n + r.below(SPARE) as u64);
    calls.push(longer);
    calls
}

/// Scenes of which each comes with the least limits, with one of them at its cap and with all: the flights, and one that is
/// refused with each number from 4 to 7.
pub fn at_caps() -> impl Iterator<Item = Vec<Call>> {
    let refused = |number: u32| {
        let some = (0..).map(|n| sheets(&mut Random::new(1, n)));
        some.into_iter().find(|c| matches!(reckon::expand(&with(c, GENEROUS), None), Err(r) if r.number == number))
    };
    let mut scenes = flights::calls(MOST_CHARGES);
    scenes.dedup_by(|a, b| a.root == b.root);
    scenes.extend((4..=7).filter_map(refused));
    scenes.into_iter().map(|scene| {
        let least = least(&scene);
        let alone = [0, 1, 2].map(|which| changed(least, which, CAPS[which]));
        [least].iter().chain(&alone).chain([&CAPS]).map(|l| with(&scene, *l)).collect()
    })
}

/// The large scenes, with limits just enough, with N or K one less, and with both larger: a little, and by what a caller
/// raises them by.
pub fn of_large() -> impl Iterator<Item = Vec<Call>> {
    large::all().into_iter().map(|(_, scene)| {
        let call = scene.call(MOST_CHARGES);
        let [n, k] = reckon::expand(&call, None).map_or([1000, 4000], |e| [e.nodes, e.charges]);
        let d = call.max_depth;
        let list =
            [[n, d, k], [n - 1, d, k], [n, d, k - 1], [n, d, k + 1], [n, d, 4 * k], [2 * n, d, k], [4 * n, d, 4 * k]];
        list.map(|limits| with(&call, limits)).to_vec()
    })
}

/// Sheets of document 01's families, of the wishes', and random ones. One in eight is damaged, one in fifty of another length.
fn sheets(r: &mut Random) -> Call {
    let scene = match r.below(8) {
        0 | 1 => families::any(r),
        2 => {
            let first = families::of_document_01();
            families::scene(first + r.next() % (families::total() - first))
        }
        _ => {
            let most_nodes = r.of(&[3, 5, 8, 12, 20]);
            free::scene(r, most_nodes)
        }
    };
    let mut call = scene.call(MOST_CHARGES);
    let in_library = !call.library.is_empty() && r.percent(40);
    let sheet = if in_library { &mut call.library } else { &mut call.root };
    if r.below(8) == 0 {
        damage::damage(r, sheet);
    }
    if r.below(50) == 0 {
        sheet.extend((0..r.range(1, 7) as u32).map(|i| 1 + i));
    }
    call
}

/// The least of each limit with which the answer is the one that generous limits give.
fn least(call: &Call) -> Limits {
    let full = reckon::expand(&with(call, GENEROUS), None);
    [0, 1, 2].map(|which| {
        let (mut low, mut high) = (0, GENEROUS[which]);
        while low < high {
            let middle = (low + high) / 2;
            if reckon::expand(&with(call, changed(GENEROUS, which, middle)), None) == full {
                high = middle;
            } else {
                low = middle + 1;
            }
        }
        low
    })
}
