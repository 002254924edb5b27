//! Expands the prototypes of a scene in Lines form and prints the counts: `expand SCENE.lines`

use std::process::ExitCode;

/// The C interface, as include/luhetami.h has it.
mod c {
    extern "C" {
        pub fn luhetami_expand(
            root: *const u32,
            root_len: usize,
            library: *const u32,
            library_len: usize,
            max_nodes: u32,
            max_depth: u32,
            max_rows: u32,
            out: *mut u32,
            out_len: usize,
            ledger: *mut u32,
            ledger_len: usize,
            scopes: *mut u32,
            scopes_len: usize,
            work: *mut u32,
            work_len: usize,
            answer: *mut u32,
            answer_len: usize,
        ) -> u32;
        pub fn luhetami_read_lines(
            lines: *const u8,
            lines_len: usize,
            words: *mut u32,
            words_len: usize,
            answer: *mut u32,
            answer_len: usize,
        ) -> u32;
    }
}

const NODES: usize = 20_000;
const DEPTH: usize = 64;
const ROWS: usize = 100_000;

/// The words of a scene, or the refusal and the place of its first bad line.
fn read_lines(lines: &[u8]) -> Result<Vec<u32>, (u32, u32)> {
    let mut words = vec![0; lines.len() / 89 * 8];
    let mut answer = [0; 3];
    // Safety: each pointer comes with the length of its own slice, and the slices do not overlap.
    let refusal = unsafe {
        c::luhetami_read_lines(
            lines.as_ptr(),
            lines.len(),
            words.as_mut_ptr(),
            words.len(),
            answer.as_mut_ptr(),
            answer.len(),
        )
    };
    if refusal == 0 {
        Ok(words)
    } else {
        Err((refusal, answer[1]))
    }
}

/// The seven words of the answer: refusal, two places, nodes, scopes, charges, rows of out. The library is empty.
fn expand(root: &[u32]) -> [u32; 7] {
    let library: [u32; 0] = [];
    let mut out = vec![0; 8 * ROWS];
    let mut ledger = vec![0; 3 * NODES];
    let mut scopes = vec![0; 5 * ROWS];
    let mut work = vec![0; 16 * ROWS + 64 * (DEPTH + 1)];
    let mut answer = [0; 7];
    // Safety: as above.
    unsafe {
        c::luhetami_expand(
            root.as_ptr(),
            root.len(),
            library.as_ptr(),
            library.len(),
            NODES as u32,
            DEPTH as u32,
            ROWS as u32,
            out.as_mut_ptr(),
            out.len(),
            ledger.as_mut_ptr(),
            ledger.len(),
            scopes.as_mut_ptr(),
            scopes.len(),
            work.as_mut_ptr(),
            work.len(),
            answer.as_mut_ptr(),
            answer.len(),
        )
    };
    answer
}

fn main() -> ExitCode {
    let arguments: Vec<String> = std::env::args().collect();
    let [_, path] = &arguments[..] else {
        eprintln!("usage: expand SCENE.lines");
        return ExitCode::from(64);
    };
    let lines = match std::fs::read(path) {
        Ok(lines) => lines,
        Err(error) => {
            eprintln!("{path}: {error}");
            return ExitCode::from(74);
        }
    };
    let root = match read_lines(&lines) {
        Ok(root) => root,
        Err((refusal, line)) => {
            println!("{path}: refused {refusal} at line {line}");
            return ExitCode::from(refusal as u8);
        }
    };
    let [refusal, first, second, nodes, scopes, charges, rows] = expand(&root);
    if refusal == 0 {
        println!("{path}: nodes {nodes}, scopes {scopes}, charges {charges}, rows {rows}");
    } else {
        println!("{path}: refused {refusal}, places {first} and {second}");
    }
    ExitCode::from(refusal as u8)
}
