//! The stored cases of the program `replay`, and their answers: its standard input and output.
//!
//! A case is called with what its first two lines say: N, D, K, the words of root and library, the rows of each that are kept
//! from the cases before, 0; the words of out, ledger, scopes and work, four zeros. The rows of both sheets that are not kept
//! follow. Before the call the slices hold the patterns of `frames`. The line of its answer is the answer frame's head and a
//! sum over the frame's other words. Each case is held against the original and the checks of `versus` first.

use std::fs;
use std::path::Path;

use crate::call::Call;
use crate::frames;
use crate::mutants;
use crate::reckon;
use crate::scenes::stored::{self, notices, SHEET_WORDS};
use crate::tally::Tally;
use crate::versus;

/// Where a frame is malformed the program writes this and the case's number.
const MALFORMED: u32 = 99;

/// Writes `stdin` and `stdout` in a folder. The number of differences.
pub fn run(folder: &str) -> Result<u64, String> {
    let calls = stored::calls();
    let mut tally = Tally::default();
    let mut differences = 0;
    let mut input = Input::default();
    let mut output = String::new();
    for (number, call) in calls.iter().enumerate() {
        if let Err(what) = hold(call, &mut tally) {
            differences += 1;
            println!("case {number}: {what}\n{}", versus::show(call));
        }
        input.case(call);
        output += &line(&answer(call));
    }
    // The last frame is cut short, so that its line shows that all the others were run.
    input.cut();
    output += &line(&[MALFORMED, calls.len() as u32]);
    print!("{tally}");
    for refusal in 1..=10 {
        if tally.refused[refusal] < 5 {
            differences += 1;
            println!("refusal {refusal}: too few cases");
        }
    }
    differences += unnoticed(&calls);
    let write = |name: &str, text: &str| {
        println!("{name}: {} bytes", text.len());
        fs::write(Path::new(folder).join(name), text).map_err(|e| e.to_string())
    };
    write("stdin", &input.text(calls.len() + 1))?;
    write("stdout", &output)?;
    println!("{differences} differences");
    Ok(differences)
}

/// A case held against the original, where that can answer, and by every check that needs none.
fn hold(call: &Call, tally: &mut Tally) -> Result<(), String> {
    if !stored::fits(call) {
        return Err("longer than the program's arrays".into());
    }
    let answer = reckon::expand(call, None);
    if matches!(&answer, Err(r) if r.number < 3) {
        tally.note(&answer);
        return Ok(());
    }
    versus::check(call, tally)
}

/// The mutants that no case notices.
fn unnoticed(calls: &[Call]) -> u64 {
    let mut missed = 0;
    for (mutant, wrong) in mutants::ALL.iter().chain(mutants::FRAMES_ONLY) {
        if !calls.iter().any(|c| notices(c, *mutant)) {
            missed += 1;
            println!("{mutant:?}: {wrong}: not noticed");
        }
    }
    missed
}

// ---- The program's text

/// A row as a line of document 01; columns that are not given are 0.
fn line(row: &[u32]) -> String {
    let column = |i| format!("{:>11}", row.get(i).unwrap_or(&0));
    (0..8).map(column).collect::<String>() + "\n"
}

/// The numbers of a case's line: the answer frame's head without its magic word, and the sum over the frame's other words.
fn answer(call: &Call) -> Vec<u32> {
    let frame = frames::expected(call, None);
    let (head, words) = frame.split_at(frames::HEAD);
    let with = |sum: u32, n: &u32| ((65599 * sum as u64 + *n as u64 + 1) % 4_294_967_291) as u32;
    let mut answer = head[1..].to_vec();
    answer.push(words.iter().fold(0, with));
    answer
}

/// The text of some cases, and the program's arrays of both sheets after them.
#[derive(Default)]
struct Input {
    text: String,
    root: Vec<u32>,
    library: Vec<u32>,
}

impl Input {
    fn case(&mut self, call: &Call) {
        let (root_kept, root) = sheet(&mut self.root, &call.root);
        let (library_kept, library) = sheet(&mut self.library, &call.library);
        let words = [call.root.len() as u32, call.library.len() as u32];
        let limits = [call.max_nodes, call.max_depth, call.max_rows];
        self.text += &line(&[&limits[..], &words, &[root_kept, library_kept]].concat());
        self.text += &line(&call.lent.map(|words| words as u32));
        self.text += &root;
        self.text += &library;
    }

    /// The first half of a case.
    fn cut(&mut self) {
        self.text += &line(&[]);
    }

    fn text(&self, count: usize) -> String {
        line(&[count as u32]) + &self.text
    }
}

/// A sheet over what an array holds: how many rows are kept, and the others as lines.
fn sheet(array: &mut Vec<u32>, words: &[u32]) -> (u32, String) {
    array.resize(SHEET_WORDS, 0);
    let mut filled = words.to_vec();
    filled.resize(words.len().div_ceil(8) * 8, 0);
    let same = filled.chunks(8).zip(array.chunks(8)).take_while(|(a, b)| a == b).count();
    array[..filled.len()].copy_from_slice(&filled);
    (same as u32, filled.chunks(8).skip(same).map(line).collect())
}
