//! Frames: cases for a program under test in one file, its answers in another, and the check of every word.
//!
//! All words are little-endian u32. A case is the magic word, max_nodes, max_depth, max_rows, the word counts of root and
//! library, the lengths of out, ledger, scopes and work, the root's words, the library's words. An answer is the magic word,
//! refusal, first place, second place, nodes, scopes, charges, rows of out, then out, ledger and scopes in full, as they
//! stand after the call. Before it, word i of out is `OUT + i`, of ledger `LEDGER + i`, of scopes `SCOPES + i`; work holds
//! garbage, word i being `i * 2654435761`.

use std::fs::File;
use std::io::{self, BufReader, BufWriter, Read, Write};

use crate::call::Call;
use crate::mutants::{self, Mutant};
use crate::reckon;
use crate::scenes::lent;
use crate::versus;

const MAGIC: u32 = 0x4C55_4845;
pub const OUT: u32 = 0x5A00_0000;
pub const LEDGER: u32 = 0x5B00_0000;
pub const SCOPES: u32 = 0x5C00_0000;
/// Word i of work is i times this, wrapped.
pub const GARBAGE: u32 = 2_654_435_761;
/// Words of an answer before out.
pub const HEAD: usize = 8;

/// The three lent slices as they are before the call.
fn patterns(lent: [u64; 4]) -> [Vec<u32>; 3] {
    let fill = |first: u32, length: u64| (0..length as u32).map(|i| first.wrapping_add(i)).collect();
    [fill(OUT, lent[0]), fill(LEDGER, lent[1]), fill(SCOPES, lent[2])]
}

/// The answer frame that a call must give.
pub fn expected(call: &Call, mutant: Option<Mutant>) -> Vec<u32> {
    let mut slices = patterns(call.lent);
    let mut head = [MAGIC, 0, 0, 0, 0, 0, 0, 0];
    match reckon::expand(call, mutant) {
        Err(refusal) => {
            head[1] = refusal.number;
            head[2..4].copy_from_slice(&refusal.places);
        }
        Ok(e) => {
            head[4..].copy_from_slice(&[e.nodes, e.scopes.len() as u32, e.charges, e.out.len() as u32]);
            let written: [Vec<u32>; 3] = [
                e.out.into_iter().flatten().collect(),
                e.ledger.into_iter().flatten().collect(),
                e.scopes.into_iter().flatten().collect(),
            ];
            for (slice, words) in slices.iter_mut().zip(written) {
                slice[..words.len()].copy_from_slice(&words);
            }
        }
    }
    let mut frame = head.to_vec();
    slices.into_iter().for_each(|s| frame.extend(s));
    frame
}

/// The first word in which an answer frame departs from what it must be.
fn difference(call: &Call, expected: &[u32], got: &[u32]) -> Option<String> {
    let at = (0..expected.len().max(got.len())).find(|i| expected.get(*i) != got.get(*i))?;
    let heads = ["magic", "refusal", "first place", "second place", "nodes", "scopes", "charges", "rows of out"];
    let place = if at < HEAD {
        heads[at].to_owned()
    } else {
        let mut rest = at - HEAD;
        let mut place = String::from("past the frame");
        for (name, length) in ["out", "ledger", "scopes"].iter().zip(call.lent) {
            if (rest as u64) < length {
                place = format!("{name} word {rest}");
                break;
            }
            rest -= length as usize;
        }
        place
    };
    Some(format!("{place}: expected {:?}, got {:?}", expected.get(at), got.get(at)))
}

/// What `frames write` is asked for.
pub struct Batch {
    pub count: u64,
    pub seed: u64,
    pub small: bool,
    pub caps: bool,
}

/// Writes the cases of a batch.
pub fn write(path: &str, batch: &Batch) -> io::Result<()> {
    let mut file = BufWriter::new(File::create(path)?);
    let bounds = if batch.small { lent::SMALL } else { lent::USUAL };
    if batch.caps {
        for call in lent::caps() {
            write_words(&mut file, &case_frame(&call))?;
        }
    }
    for number in 0..batch.count {
        write_words(&mut file, &case_frame(&lent::marked(batch.seed, number, bounds)))?;
    }
    file.flush()
}

fn case_frame(call: &Call) -> Vec<u32> {
    let mut frame = vec![MAGIC, call.max_nodes, call.max_depth, call.max_rows];
    frame.extend([call.root.len() as u32, call.library.len() as u32]);
    frame.extend(call.lent.map(|n| n as u32));
    frame.extend(&call.root);
    frame.extend(&call.library);
    frame
}

/// How many of a batch's calls notice each mutant. The number of mutants that none does.
pub fn mutants(count: u64, seed: u64) -> u64 {
    let all = || mutants::ALL.iter().chain(mutants::FRAMES_ONLY);
    let mut noticed = vec![0u64; all().count()];
    for number in 0..count {
        let call = lent::marked(seed, number, if number % 2 == 0 { lent::SMALL } else { lent::USUAL });
        let truth = reckon::expand(&call, None);
        for ((mutant, _), noticed) in all().zip(&mut noticed) {
            *noticed += (reckon::expand(&call, Some(*mutant)) != truth) as u64;
        }
    }
    for ((mutant, wrong), noticed) in all().zip(&noticed) {
        println!("{mutant:?}: {wrong}: noticed by {noticed} of {count} frames");
    }
    let missed = noticed.iter().filter(|n| **n == 0).count() as u64;
    println!("{} mutants, {missed} not noticed", noticed.len());
    missed
}

/// Answers every case by `reckon`, as a program under test would.
pub fn answer(cases: &str, answers: &str, mutant: Option<Mutant>) -> io::Result<()> {
    let mut cases = BufReader::new(File::open(cases)?);
    let mut file = BufWriter::new(File::create(answers)?);
    while let Some(call) = read_case(&mut cases)? {
        write_words(&mut file, &expected(&call, mutant))?;
    }
    file.flush()
}

/// Checks the answers to some cases. The number of differences; the smallest is printed.
pub fn check(cases: &str, answers: &str) -> io::Result<u64> {
    let mut cases = BufReader::new(File::open(cases)?);
    let mut answers = BufReader::new(File::open(answers)?);
    let mut report = Report::default();
    while let Some(call) = read_case(&mut cases)? {
        let expected = expected(&call, None);
        let got = read_words(&mut answers, expected.len())?;
        let short = got.len() < expected.len();
        report.note(&call, &expected, &got);
        if short {
            println!("the answers end early");
            break;
        }
    }
    if !read_words(&mut answers, 1)?.is_empty() {
        println!("answers are left over");
        report.differences += 1;
    }
    Ok(report.print())
}

/// Counts of a run over many calls.
#[derive(Default)]
struct Report {
    cases: u64,
    refused: [u64; 11],
    differences: u64,
    smallest: Option<(u64, Call, String)>,
}

impl Report {
    /// One answer frame held against what it must be.
    fn note(&mut self, call: &Call, expected: &[u32], got: &[u32]) {
        if let Some(what) = difference(call, expected, got) {
            self.differences += 1;
            if self.smallest.as_ref().is_none_or(|(_, c, _)| call.size() < c.size()) {
                self.smallest = Some((self.cases, call.clone(), what));
            }
        }
        self.refused[expected[1] as usize] += 1;
        self.cases += 1;
    }

    /// The number of differences, with the counts printed.
    fn print(&self) -> u64 {
        print!("{} calls, accepted: {}, refused:", self.cases, self.refused[0]);
        for (number, count) in self.refused.iter().enumerate().skip(1).filter(|(_, c)| **c > 0) {
            print!(" {number}: {count}");
        }
        println!();
        if let Some((number, call, what)) = &self.smallest {
            println!("smallest difference, call {number}: {what}\n  lent {:?}\n{}", call.lent, versus::show(call));
        }
        println!("{} differences", self.differences);
        self.differences
    }
}

fn read_case(from: &mut impl Read) -> io::Result<Option<Call>> {
    let head = read_words(from, 10)?;
    if head.is_empty() {
        return Ok(None);
    }
    if head.len() < 10 || head[0] != MAGIC {
        return Err(io::Error::other("not a frame of a case"));
    }
    let root = read_words(from, head[4] as usize)?;
    let library = read_words(from, head[5] as usize)?;
    let lent = [head[6], head[7], head[8], head[9]].map(u64::from);
    Ok(Some(Call { root, library, max_nodes: head[1], max_depth: head[2], max_rows: head[3], lent }))
}

/// At most `count` words; fewer at the end of the file.
fn read_words(from: &mut impl Read, count: usize) -> io::Result<Vec<u32>> {
    let mut bytes = Vec::new();
    from.take(count as u64 * 4).read_to_end(&mut bytes)?;
    Ok(bytes.chunks_exact(4).map(|b| u32::from_le_bytes(b.try_into().unwrap())).collect())
}

fn write_words(to: &mut impl Write, words: &[u32]) -> io::Result<()> {
    for word in words {
        to.write_all(&word.to_le_bytes())?;
    }
    Ok(())
}
