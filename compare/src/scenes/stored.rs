//! The calls that the program `replay` runs. Those that are stored stay as they are, each in its place: a wish may change
//! answers and add calls, and changes none. (vectors/README.md says how they were chosen.) Those of wish 12 are chosen here.

use super::families;
use crate::call::Call;
use crate::flights;
use crate::frames;
use crate::mutants::{self, Mutant};
use crate::random::Random;

/// What the program's own arrays hold: the words of a sheet, and of out, ledger, scopes and work.
pub const SHEET_WORDS: usize = 1000;
const LENT_WORDS: [u64; 4] = [3300, 1300, 2100, 40000];
/// The limit of charges that the arrays are made for.
const MOST_ROWS: u32 = 400;

/// The program's input, and how many of its calls were there before wish 12.
const STORED: &str = include_str!("../../../crates/test_replay/stdin");
const BEFORE_WISH_12: usize = 884;
/// The calls of wish 12's families beside those that a mutant asks for.
const LINKED: usize = 4;
const SEED: u64 = 12;

/// Whether the program's arrays hold a call.
pub fn fits(call: &Call) -> bool {
    call.root.len() <= SHEET_WORDS
        && call.library.len() <= SHEET_WORDS
        && call.lent.iter().zip(LENT_WORDS).all(|(words, most)| *words <= most)
}

/// Whether a mutant answers a call in another way.
pub fn notices(call: &Call, mutant: Mutant) -> bool {
    frames::expected(call, Some(mutant)) != frames::expected(call, None)
}

/// All of them, in the order of the program's input.
pub fn calls() -> Vec<Call> {
    let mut calls = stored(BEFORE_WISH_12);
    calls.extend(of_wish_12());
    calls
}

/// The first calls of the program's input.
fn stored(count: usize) -> Vec<Call> {
    let line = |text: &str| text.split_whitespace().map(|n| n.parse().expect("a number")).collect::<Vec<u32>>();
    let mut lines = STORED.lines().skip(1).map(line);
    let mut next = move || lines.next().expect("a stored call");
    let mut sheets = [vec![0; SHEET_WORDS], vec![0; SHEET_WORDS]];
    let mut calls = Vec::new();
    for _ in 0..count {
        let head = next();
        let lent = next();
        for (at, sheet) in sheets.iter_mut().enumerate() {
            let (words, kept) = (head[3 + at] as usize, head[5 + at] as usize);
            for row in kept..words.div_ceil(8) {
                sheet[8 * row..8 * row + 8].copy_from_slice(&next());
            }
        }
        let words = |at: usize| sheets[at][..head[3 + at] as usize].to_vec();
        calls.push(Call {
            root: words(0),
            library: words(1),
            max_nodes: head[0],
            max_depth: head[1],
            max_rows: head[2],
            lent: [0, 1, 2, 3].map(|at| lent[at] as u64),
        });
    }
    calls
}

/// The flights of wish 12; a call for each of its mutants that they do not notice; some of its families.
fn of_wish_12() -> Vec<Call> {
    let mut calls: Vec<Call> = flights::of_wish_12(MOST_ROWS);
    let first = families::of_wishes_before_12();
    let scene = |number| families::scene(number).call(MOST_ROWS);
    for mutant in mutants::OF_WISH_12 {
        if !calls.iter().any(|c| notices(c, *mutant)) {
            calls.extend((first..families::total()).map(scene).find(|c| fits(c) && notices(c, *mutant)));
        }
    }
    let mut r = Random::new(SEED, 0);
    let some = std::iter::repeat_with(|| scene(first + r.next() % (families::total() - first)));
    let followed = |c: &Call| fits(c) && notices(c, Mutant::FilesExternsPlain);
    calls.extend(some.filter(followed).take(LINKED));
    calls
}
