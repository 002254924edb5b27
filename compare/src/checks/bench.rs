//! Time of the check of a large sheet by each form, beside that of summing its words.

use std::hint::black_box;

use super::reckon::{ANSWER, FORM_DOCUMENTS, FORM_EXPANDED, FORM_LIBRARY, FORM_PROTOS, FORM_ROOT};
use crate::bench::{factor, several, show, Times};
use crate::linked::{self, LINKED};
use crate::memory::now;
use crate::rows::Row;

const ROWS: usize = 1_048_576;
const NAME: &str = "check of 1,048,576 rows";
/// Goal: times the half.
const MOST_GROWTH: f64 = 2.2;

/// So many rows, these again and again; first and last are once.
fn sheet(rows: usize, first: &[Row], again: &[Row], last: &[Row]) -> Vec<u32> {
    let middle = (rows - first.len() - last.len()) / again.len();
    let all = first.iter().chain((0..middle).flat_map(|_| again)).chain(last);
    all.flatten().copied().collect()
}

fn of(form: u32, rows: usize) -> Vec<u32> {
    let document = [1, 5, 0, 0, 0, 0, 0, 0];
    let top = [11, 0, 0, 0, 0, 0, 0, 0];
    let node = [[2, 7, u32::MAX, 0, 0, 0, 0, 0], [3, 9, 0, 0, 0, 13, 2, 1], [9, 0, 0, 0, 0, 0, 0, 0]];
    let (head, tail) = ([document, node[0]], [node[1], node[2], top]);
    match form {
        FORM_LIBRARY => sheet(rows, &[], &[[12, 2, 0, 0, 0, 0, 0, 0], head[0], head[1], tail[0], tail[1], top], &[]),
        FORM_DOCUMENTS => sheet(rows, &[], &[head[0], head[1], tail[0], tail[1], top], &[]),
        FORM_PROTOS => sheet(
            rows,
            &[],
            &[[7, 4, 0, 0, 0, 0, 0, 0], [4, 2, 13, 9, u32::MAX, 13, 2, 1], [9, 0, 0, 0, 0, 0, 0, 0]],
            &[],
        ),
        _ => sheet(rows, &[document], &node, &[top]),
    }
}

/// The table, where its name has this part. The number of wrong answers.
pub fn run(part: &str) -> u64 {
    if !LINKED || !NAME.contains(part) {
        return 0;
    }
    let mut wrong = 0;
    println!("| check | form | library | sum of the words | library / sum | half the rows | full / half |");
    println!("|--|--|--:|--:|--:|--:|--:|");
    let forms = [
        (FORM_ROOT, "root"),
        (FORM_LIBRARY, "library"),
        (FORM_EXPANDED, "expanded document"),
        (FORM_DOCUMENTS, "documents one after another"),
        (FORM_PROTOS, "protos"),
    ];
    for (form, name) in forms {
        let (full, half) = (of(form, ROWS), of(form, ROWS / 2));
        let mut answer = [0; ANSWER];
        let (mut fulls, mut halves, mut sums) = (Times::default(), Times::default(), Times::default());
        several(9, 1.0, || {
            let start = now();
            black_box(linked::check(&half, form, &mut answer));
            halves.push(now() - start);
            let start = now();
            black_box(full.iter().fold(0u32, |sum, word| sum.wrapping_add(*black_box(word))));
            sums.push(now() - start);
            let start = now();
            black_box(linked::check(&full, form, &mut answer));
            let time = now() - start;
            fulls.push(time);
            time
        });
        wrong += (answer != [1, 0]) as u64;
        let growth = fulls.median() / halves.median();
        println!(
            "| {NAME} | {name} | {} | {} | {:.2} | {} | {} |",
            show(fulls.median()),
            show(sums.median()),
            fulls.median() / sums.median(),
            show(halves.median()),
            factor(growth, growth <= MOST_GROWTH)
        );
    }
    println!();
    wrong
}
