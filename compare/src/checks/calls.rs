//! The calls that are tried: every sheet of few rows of each kind by each form, and random sheets of each form, some damaged.

use super::reckon::{ANSWER, FORM_DOCUMENTS, FORM_EXPANDED, FORM_LIBRARY, FORM_PROTOS, FORM_ROOT};
use super::Call;
use crate::random::Random;
use crate::rows::{words_of, Row, NONE};
use crate::scenes::{damage, expanded, free};
use crate::tree::{print, print_library, Doc};

/// Rows of which every sheet of up to `MOST_ROWS` is tried.
const ROWS: [Row; 17] = [
    [1, 5, 0, 0, 0, 0, 0, 0],
    [2, 7, NONE, 0, 0, 0, 0, 0],
    [2, 7, 3, 1, 0, 0, 0, 0],
    [3, 9, 0, 0, 0, 13, 2, 1],
    [4, 2, 13, 9, NONE, 13, 2, 1],
    [4, 2, 13, 9, 8, 4, 1, 6],
    [4, 0, 13, 9, 8, 0, 0, 0],
    [5, 0, 0, 0, 0, 0, 0, 0],
    [5, 1, 0, 0, 0, 0, 0, 0],
    [5, 3, 1, 2, 3, 4, NONE, 0],
    [5, 4, 0, 0, 0, 0, 0, 0],
    [7, 4, 0, 0, 0, 0, 0, 0],
    [8, 4, 0, 0, 0, 0, 0, 0],
    [9, 0, 0, 0, 0, 0, 0, 0],
    [11, 0, 0, 0, 0, 0, 0, 0],
    [12, 2, 0, 0, 0, 0, 0, 0],
    [0, 0, 0, 0, 0, 0, 0, 0],
];
const MOST_ROWS: u32 = 4;
/// Each form, and the first number that is none's.
const FORMS: u32 = FORM_PROTOS + 2;
/// Nodes of a random scene's documents.
const MOST_NODES: usize = 8;

/// Every sheet of few rows, by every form.
fn small() -> impl Iterator<Item = Call> {
    (0..=MOST_ROWS).flat_map(|rows| {
        (0..ROWS.len().pow(rows)).flat_map(move |number| {
            let sheet: Vec<Row> = (0..rows).map(|row| ROWS[number / ROWS.len().pow(row) % ROWS.len()]).collect();
            let words = words_of(&sheet);
            (0..FORMS).map(move |form| Call { words: words.clone(), form, answer: ANSWER })
        })
    })
}

/// Sheets of every length in words, whole and not.
fn lengths() -> impl Iterator<Item = Call> {
    (0..=40).flat_map(|length| {
        let two = [[1, 5, 0, 0, 0, 0, 0, 0], [11, 0, 0, 0, 0, 0, 0, 0]];
        let protos = [[7, 4, 0, 0, 0, 0, 0, 0]];
        let words = |rows: &[Row]| (0..length).map(|at| rows[at / 8 % rows.len()][at % 8]).collect::<Vec<u32>>();
        let sheets = [words(&two), words(&protos)];
        sheets.into_iter().flat_map(|words| {
            (0..FORMS).chain([u32::MAX]).flat_map(move |form| {
                let words = words.clone();
                (0..5).map(move |answer| Call { words: words.clone(), form, answer })
            })
        })
    })
}

/// A document of a random scene, expanded but one time in eight.
fn document(r: &mut Random) -> Doc {
    let doc = free::scene(r, MOST_NODES).root;
    if r.percent(12) {
        doc
    } else {
        expanded::expanded(doc)
    }
}

/// A random call: a sheet made for a form, and asked for it but one time in five.
fn random(seed: u64, number: u64) -> Call {
    let r = &mut Random::new(seed, number);
    let made = r.below(FORM_PROTOS as usize + 1) as u32;
    let mut words = match made {
        FORM_ROOT => words_of(&print(&free::scene(r, MOST_NODES).root)),
        FORM_LIBRARY => words_of(&print_library(&free::scene(r, MOST_NODES).files)),
        FORM_EXPANDED => words_of(&print(&document(r))),
        FORM_DOCUMENTS => {
            let count = r.below(6);
            (0..count).flat_map(|_| words_of(&print(&document(r)))).collect()
        }
        _ => {
            let mut doc = Doc { protos: free::scene(r, MOST_NODES).root.protos, ..Doc::default() };
            for proto in &mut doc.protos {
                if !r.percent(8) {
                    proto.body.clear();
                }
            }
            // Without the document's own two rows.
            let rows = print(&doc);
            words_of(&rows[1..rows.len() - 1])
        }
    };
    if r.percent(20) && !words.is_empty() {
        damage::damage(r, &mut words);
    }
    if r.percent(15) {
        damage::mark(r, &mut words);
    }
    if r.percent(4) {
        words.extend((0..r.range(1, 7)).map(|_| 0));
    }
    let form = match r.below(20) {
        0..=2 => r.below(FORM_PROTOS as usize + 1) as u32,
        3 => r.of(&[FORM_PROTOS + 1, 6, 256, 1 << 31, u32::MAX]),
        _ => made,
    };
    let answer = if r.percent(6) { r.below(ANSWER + 4) } else { ANSWER };
    Call { words, form, answer }
}

/// The calls of a seed, one after the other.
pub fn calls(count: u64, seed: u64) -> Box<dyn Iterator<Item = Call>> {
    Box::new(small().chain(lengths()).chain((0..count).map(move |number| random(seed, number))))
}
