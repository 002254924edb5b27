//! `luhetami pages`: the ledger of an expanded document, on pages to print.

use std::io::{self, Write};

use crate::check::misfit;
use crate::input;
use crate::library::{self, Form, Paged, ROW_WORDS};
use crate::memory::Zeroed;
use crate::Stop;

/// Nodes and bytes of a page, words of a ledger's entry, words of work for a row.
const PAGE_NODES: usize = 59;
const PAGE_BYTES: usize = 60 * 73;
const ENTRY_WORDS: usize = 3;
const WORK_WORDS: usize = 16;

/// The kind of a node's row.
const NODE_ROW: u32 = 2;

const MALFORMED: u32 = 28;

pub struct Options {
    pub document: String,
    pub ledger: String,
}

/// Reads the document and the ledger, has the pages written, and prints them.
pub fn run(options: &Options) -> Result<(), Stop> {
    let document = input::read_document(&options.document)?;
    let ledger = read_ledger(&options.ledger)?;
    let rows = document.len() / ROW_WORDS;
    let nodes = document.chunks(ROW_WORDS).filter(|row| row[0] == NODE_ROW).count();
    let mut text = vec![0; nodes.div_ceil(PAGE_NODES) * PAGE_BYTES];
    let mut work = Zeroed::new(WORK_WORDS * rows).map_err(Stop::System)?;
    let Paged { refusal, bytes } = library::pages(&document, &ledger, &mut text, &mut work);
    let what = match refusal {
        0 => {
            let mut out = io::stdout().lock();
            out.write_all(&text[..bytes as usize])
                .and_then(|()| out.flush())
                .map_err(|e| Stop::system("writing standard output", e))?;
            eprintln!("accepted: nodes {nodes}, pages {}, bytes {bytes} [0 {bytes}]", bytes as usize / PAGE_BYTES);
            return Ok(());
        }
        MALFORMED => match library::check(&document, Form::Expanded) {
            Some(row) => format!("{}: {}", options.document, misfit(&document, Form::Expanded, row)),
            None => format!("{}: {} numbers, not three for each of {nodes} nodes", options.ledger, ledger.len()),
        },
        _ => String::from("too few lent bytes"),
    };
    Err(Stop::Refused(refusal, format!("refused {refusal}: {what} [{refusal} 0]")))
}

/// The numbers of a ledger as `--ledger` writes it: three to a line. Spaces between them do no harm.
fn read_ledger(path: &str) -> Result<Vec<u32>, Stop> {
    let text = input::read_text(path).map_err(|e| Stop::system(&format!("reading {path}"), e))?;
    let lines = text.strip_suffix(b"\n").unwrap_or(&text);
    let mut words = Vec::new();
    for (at, line) in lines.split(|byte| *byte == b'\n').enumerate().filter(|_| !lines.is_empty()) {
        let entry: Option<Vec<u32>> = std::str::from_utf8(line)
            .ok()
            .and_then(|line| line.split_whitespace().map(|word| word.parse().ok()).collect())
            .filter(|entry: &Vec<u32>| entry.len() == ENTRY_WORDS);
        words.extend(entry.ok_or_else(|| {
            let line = String::from_utf8_lossy(line);
            Stop::Data(format!("{path}: line {} is not three numbers from 0 to {}: {line:?}", at + 1, u32::MAX))
        })?);
    }
    Ok(words)
}
