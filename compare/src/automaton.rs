//! A second check of a sheet, row by row with a small state and a table of columns, held against `grammar` on every input.

use crate::rows::*;

/// What each column of a kind may be: `n` a name or id, `w` any word, `0` zero, `1` `2` `3` at most that, `t` a type tag.
/// What depends on another column is left to `linked`.
const COLUMNS: [&[u8; 7]; 14] = [
    b"w000000", b"nw3w000", b"n1w1w2w", b"3tnww2w", b"wwwwwww", b"2000000", b"n000000", b"n000000", b"n000000",
    b"nw00000", b"0000000", b"n000000", b"nwww000", b"nnn0000",
];

fn columns_fit(r: &Row) -> bool {
    (1..=14).contains(&r[0])
        && r[1..].iter().zip(COLUMNS[r[0] as usize - 1]).all(|(word, may)| match may {
            b'n' => *word < NONE,
            b'w' => true,
            b't' => *word < TAGS,
            digit => *word <= (digit - b'0') as u32,
        })
        && linked(r)
}

fn linked(r: &Row) -> bool {
    let [kind, a, b, c, d, e, f, g] = *r;
    let value = if f == 0 { e == 0 && g == 0 } else { e < TAGS };
    match kind {
        NODE if c == 1 || c == 2 => d < NONE,
        NODE => d == 0,
        FIELD if b == 1 => c < NONE && f == 0 && value,
        FIELD => c == 0 && f != 0 && value,
        INTERFACE => value,
        STATEMENT if a < 3 => b < NONE && [c, d, e, f, g] == [0; 5],
        STATEMENT if a == 3 => b.max(c).max(d).max(e) < NONE,
        STATEMENT => a == 4 && [c, d, e, f, g] == [0; 5],
        _ => true,
    }
}

/// Where in a document the scan is; the order is that of the sheet.
#[derive(Clone, Copy, PartialEq, PartialOrd)]
enum Part {
    Before,
    Nodes,
    Protos,
    Externs,
    Top,
}

/// The first row that doesn't fit, or the row count where the sheet ends early.
pub fn misfit(words: &[u32], library: bool) -> Option<usize> {
    let mut part = Part::Before;
    // In a library a file row must come first, and may come again after a document's top.
    let mut file = !library;
    // The kind up to which the rows of the present node, proto or extern have come; 0 outside of any.
    let mut reached = 0;
    let mut left = [0u32; 3];
    let count = words.len() / 8;
    for (at, row) in words.chunks_exact(8).enumerate() {
        let r: Row = row.try_into().unwrap();
        let kind = r[0];
        if !columns_fit(&r) {
            return Some(at);
        }
        if let Some(i) = left.iter().position(|n| *n > 0) {
            if kind != [ID, STATEMENT, ASSOCIATION][i] || (i == 1 && r[1] != 3) {
                return Some(at);
            }
            left[i] -= 1;
            continue;
        }
        let inside = |first: u32| reached != 0 && reached <= kind && first <= kind;
        let fits = match (part, kind) {
            (Part::Before, DOCUMENT) => file,
            (Part::Before, FILE) => library && !file,
            (Part::Top, FILE) => library,
            (Part::Top, STATEMENT) => true,
            (Part::Nodes, NODE) => true,
            (Part::Nodes, FIELD | INTERFACE | STATEMENT | ORDER) => inside(FIELD),
            (Part::Nodes, INSTANCE) => inside(FIELD) && reached < INSTANCE,
            (Part::Protos, INTERFACE | STATEMENT) => inside(INTERFACE),
            (Part::Externs, INTERFACE | URL) => inside(INTERFACE) && (kind == URL || r[6] == 0),
            (Part::Nodes | Part::Protos, PROTO) => true,
            (Part::Nodes | Part::Protos | Part::Externs, EXTERN | TOP) => true,
            _ => false,
        };
        if !fits {
            return Some(at);
        }
        (part, reached) = match kind {
            FILE => (Part::Before, 0),
            DOCUMENT => (Part::Nodes, 0),
            NODE => (Part::Nodes, FIELD),
            PROTO => (Part::Protos, INTERFACE),
            EXTERN => (Part::Externs, INTERFACE),
            TOP => (Part::Top, 0),
            _ => (part, kind),
        };
        file = match kind {
            FILE => true,
            DOCUMENT => !library,
            _ => file,
        };
        match kind {
            FIELD | INTERFACE if r[6] == 2 => left[0] = r[7],
            INSTANCE => left = [r[2], r[3], r[4]],
            _ => {}
        }
    }
    let complete = part == Part::Top || (library && count == 0);
    (!complete || left != [0; 3]).then_some(count)
}
