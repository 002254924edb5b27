//! Calls with lent slices of a size that a program under test can hold: limits that bite at each moment, slices too short,
//! limits over their caps, damaged sheets.

use super::{damage, families, free};
use crate::call::Call;
use crate::random::Random;
use crate::reckon;
use crate::rows::MOST_ROWS;

/// The bounds of the calls.
#[derive(Clone, Copy)]
pub struct Bounds {
    pub sheet_rows: usize,
    pub max_nodes: u32,
    pub max_depth: u32,
    pub max_rows: u32,
}

/// What the fixed buffers of a small program hold.
pub const SMALL: Bounds = Bounds { sheet_rows: 60, max_nodes: 400, max_depth: 64, max_rows: 400 };
/// The usual bounds.
pub const USUAL: Bounds = Bounds { sheet_rows: 2000, max_nodes: 2000, max_depth: 512, max_rows: 4000 };

/// The most words lent beyond what a call needs.
const SPARE: usize = 19;

/// The call of a number, one in twenty with a mark on a url of one of its sheets.
pub fn marked(seed: u64, number: u64, bounds: Bounds) -> Call {
    let mut call = call(seed, number, bounds);
    let mut r = Random::new(seed ^ 0x6D61_726B, number);
    if r.percent(5) {
        let in_library = r.percent(40);
        damage::mark(&mut r, if in_library { &mut call.library } else { &mut call.root });
    }
    call
}

/// The call of a number.
pub fn call(seed: u64, number: u64, bounds: Bounds) -> Call {
    let mut r = Random::new(seed ^ 0x6672_616D_6573, number);
    let mut call = loop {
        let call = sheets(&mut r, bounds);
        if call.root.len() / 8 <= bounds.sheet_rows && call.library.len() / 8 <= bounds.sheet_rows {
            break call;
        }
    };
    if r.percent(12) {
        for _ in 0..r.range(1, 2) {
            let in_library = r.percent(if call.library.is_empty() { 10 } else { 40 });
            let sheet = if in_library { &mut call.library } else { &mut call.root };
            damage::damage(&mut r, sheet);
            sheet.truncate(bounds.sheet_rows * 8);
        }
    }
    if r.percent(2) {
        let sheet = if r.percent(50) { &mut call.library } else { &mut call.root };
        let extra = r.range(1, 7);
        sheet.truncate(sheet.len().saturating_sub(8));
        sheet.extend((0..extra as u32).map(|i| 1 + i));
    }
    limits(&mut r, &mut call, bounds);
    call.lent = Call::needed(call.max_nodes, call.max_depth, call.max_rows);
    for lent in &mut call.lent {
        *lent += if r.percent(40) { r.range(1, SPARE) as u64 } else { 0 };
    }
    if r.percent(4) {
        refused(&mut r, &mut call);
    }
    call
}

fn sheets(r: &mut Random, bounds: Bounds) -> Call {
    if r.percent(20) {
        return families::any(r).call(bounds.max_rows);
    }
    let most_nodes = if bounds.sheet_rows < 100 { r.of(&[3, 4, 5, 6]) } else { r.of(&[3, 5, 8, 12, 20]) };
    free::scene(r, most_nodes).call(bounds.max_rows)
}

/// Limits around what the call takes, or of the bounds.
fn limits(r: &mut Random, call: &mut Call, bounds: Bounds) {
    call.lent = [u64::MAX; 4];
    let generous = Call { max_nodes: bounds.max_nodes, max_rows: bounds.max_rows, ..call.clone() };
    let nodes = reckon::expand(&generous, None).map_or_else(|_| r.below(12) as u32, |e| e.nodes);
    let around = |r: &mut Random, n: u32| (n + r.below(3) as u32).saturating_sub(1);
    let max_nodes = match r.below(10) {
        0..=5 => call.max_nodes,
        6 | 7 => around(r, nodes),
        8 => r.below(10) as u32,
        _ => bounds.max_nodes,
    };
    let max_depth = match r.below(10) {
        0..=6 => call.max_depth,
        7 | 8 => r.below(10) as u32,
        _ => bounds.max_depth,
    };
    call.max_nodes = max_nodes.min(bounds.max_nodes);
    call.max_depth = max_depth.min(bounds.max_depth);
    let charges = least_rows(call, bounds.max_rows);
    let max_rows = match r.below(10) {
        0..=4 => bounds.max_rows,
        5 | 6 => around(r, charges),
        7 => charges,
        _ => r.below(charges as usize + 3) as u32,
    };
    call.max_rows = max_rows.min(bounds.max_rows);
}

/// The least K up to `most` with which the call is not refused by 10: its charges, or those before another refusal.
pub fn least_rows(call: &Call, most: u32) -> u32 {
    let enough = |max_rows| {
        let answer = reckon::expand(&Call { max_rows, lent: [u64::MAX; 4], ..call.clone() }, None);
        !matches!(answer, Err(refusal) if refusal.number == 10)
    };
    let (mut low, mut high) = (0, most);
    while low < high {
        let middle = (low + high) / 2;
        if enough(middle) {
            high = middle;
        } else {
            low = middle + 1;
        }
    }
    low
}

/// One limit over its cap, or one slice a word short.
fn refused(r: &mut Random, call: &mut Call) {
    match r.below(7) {
        0 => call.max_nodes = r.of(&[4_000_001, u32::MAX]),
        1 => call.max_depth = r.of(&[513, u32::MAX]),
        2 => call.max_rows = r.of(&[16_777_217, 1 << 29, u32::MAX]),
        short => {
            let needed = Call::needed(call.max_nodes, call.max_depth, call.max_rows)[short - 3];
            call.lent[short - 3] = needed.saturating_sub(r.of(&[1, 1, 1, 7, 1000]));
        }
    }
}

/// Calls at the cap of rows: a root and a library of the most rows, and of one more.
pub fn caps() -> Vec<Call> {
    let sheet = |first: &[[u32; 8]], rows: usize| {
        let mut words: Vec<u32> = first.iter().flatten().copied().collect();
        while words.len() < (rows - 1) * 8 {
            words.extend([2, 7, 4, 0, 0, 0, 0, 0]);
        }
        words.extend([11, 0, 0, 0, 0, 0, 0, 0]);
        words
    };
    let (document, file) = ([1, 5, 0, 0, 0, 0, 0, 0], [12, 1, 0, 0, 0, 0, 0, 0]);
    let small = sheet(&[document], 2);
    let mut calls = Vec::new();
    for rows in [MOST_ROWS, MOST_ROWS + 1] {
        calls.push(Call::new(sheet(&[document], rows), Vec::new(), 0, 0, 3));
        calls.push(Call::new(small.clone(), sheet(&[file, document], rows), 0, 0, 3));
    }
    calls
}
