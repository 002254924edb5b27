//! `luhetami count`: a table of counts, a line for each document and a column for each type name.

use std::io::{self, Write};

use crate::check::misfit;
use crate::input;
use crate::library::{self, Counted, Form, ROW_WORDS};
use crate::memory::Zeroed;
use crate::Stop;

/// Words of work for a row.
const WORK_WORDS: usize = 16;

/// The most documents and the most names.
const MOST_DOCUMENTS: usize = 4096;
const MOST_NAMES: usize = 64;

const LISTS: u32 = 17;

pub struct Options {
    /// The protocols to count by: 1, 2 or both.
    pub protocols: Vec<u32>,
    pub names: Vec<u32>,
    pub files: Vec<String>,
}

/// Reads the documents, has each counted and all of them together, and prints the table.
pub fn run(options: &Options) -> Result<(), Stop> {
    let documents =
        options.files.iter().map(|file| input::read_document(file)).collect::<Result<Vec<Vec<u32>>, Stop>>()?;
    let all: Vec<u32> = documents.concat();
    let mut work = Zeroed::new(WORK_WORDS * (all.len() / ROW_WORDS)).map_err(Stop::System)?;
    let mut lines = vec![titles(options)];
    // All at once first: what is wrong with the lists or with a document is told before anything is printed.
    let mut totals = Vec::new();
    for protocol in &options.protocols {
        totals.push(count(options, &documents, &all, *protocol, documents.len(), &mut work)?);
    }
    for (file, document) in options.files.iter().zip(&documents) {
        for protocol in &options.protocols {
            let counts = count(options, &documents, document, *protocol, 1, &mut work)?;
            lines.push(line(file, *protocol, &counts));
        }
    }
    for (protocol, counts) in options.protocols.iter().zip(&totals) {
        lines.push(line("total", *protocol, counts));
    }
    let text = table(&lines);
    let mut out = io::stdout().lock();
    out.write_all(text.as_bytes())
        .and_then(|()| out.flush())
        .map_err(|e| Stop::system("writing standard output", e))?;
    let rows = all.len() / ROW_WORDS;
    let names = options.names.len();
    eprintln!("accepted: documents {}, rows {rows}, names {names} [0 {names}]", documents.len());
    Ok(())
}

/// The counts of some documents under one protocol.
fn count(
    options: &Options,
    documents: &[Vec<u32>],
    words: &[u32],
    protocol: u32,
    many: usize,
    work: &mut Zeroed,
) -> Result<Vec<u64>, Stop> {
    let mut totals = vec![0; options.names.len()];
    let Counted { refusal } = library::count(words, &vec![protocol; many], &options.names, &mut totals, work);
    if refusal == 0 {
        return Ok(totals);
    }
    let what = if refusal == LISTS { lists(options) } else { malformed(options, documents) };
    Err(Stop::Refused(refusal, format!("refused {refusal}: {what} [{refusal} 0]")))
}

/// What 17 is given for, in words.
fn lists(options: &Options) -> String {
    let mut sorted = options.names.clone();
    sorted.sort_unstable();
    if let Some(twice) = sorted.windows(2).find(|pair| pair[0] == pair[1]) {
        return format!("name {} is given twice", twice[0]);
    }
    if options.names.len() > MOST_NAMES {
        return format!("{} names, more than {MOST_NAMES}", options.names.len());
    }
    if options.files.len() > MOST_DOCUMENTS {
        return format!("{} documents, more than {MOST_DOCUMENTS}", options.files.len());
    }
    String::from("a protocol other than 1 or 2")
}

/// What 18 is given for, in words: the first file that is no expanded document, and its row.
fn malformed(options: &Options, documents: &[Vec<u32>]) -> String {
    options
        .files
        .iter()
        .zip(documents)
        .find_map(|(file, words)| {
            let row = library::check(words, Form::Expanded)?;
            Some(format!("{file}: {}", misfit(words, Form::Expanded, row)))
        })
        .unwrap_or_else(|| String::from("not as many documents as protocols"))
}

fn titles(options: &Options) -> Vec<String> {
    let mut titles = vec![String::from("document"), String::from("protocol")];
    titles.extend(options.names.iter().map(u32::to_string));
    titles
}

fn line(name: &str, protocol: u32, counts: &[u64]) -> Vec<String> {
    let mut cells = vec![name.to_owned(), protocol.to_string()];
    cells.extend(counts.iter().map(u64::to_string));
    cells
}

/// The first column to the left, the others to the right, two spaces between them.
fn table(lines: &[Vec<String>]) -> String {
    let width = |column: usize| lines.iter().map(|line| line[column].chars().count()).max().unwrap_or(0);
    let widths: Vec<usize> = (0..lines[0].len()).map(width).collect();
    let mut text = String::new();
    for line in lines {
        let mut cells = line.iter().zip(&widths);
        if let Some((name, width)) = cells.next() {
            text.push_str(&format!("{name:<width$}"));
        }
        for (cell, width) in cells {
            text.push_str(&format!("  {cell:>width$}"));
        }
        text.push('\n');
    }
    text
}
