//! Expands scenes that outgrow the fixed buffers of the program `expand`, and has a command for each further operation.
//!
//! It decides nothing that is proved: it reads files, calls the library, and writes what the library answered.

mod answer;
mod check;
mod count;
mod input;
mod library;
mod memory;
mod moving;
mod options;
mod pages;
mod urls;

use std::fs::File;
use std::io::{self, BufWriter, Write};
use std::process::ExitCode;

use answer::Sheets;
use library::{Limits, Room, MOST_DEPTH, MOST_NODES, MOST_ROWS, ROW_BYTES, ROW_WORDS};
use options::{Command, Options, USAGE};

/// The exit status where the arguments are wrong, where a file has something else than it should, and where the operating
/// system refuses something.
const BAD_USAGE: u8 = 64;
const BAD_DATA: u8 = 65;
const SYSTEM_ERROR: u8 = 74;

/// Copies nest up to 512 deep. Only the part of the stack that is used costs memory.
const STACK_BYTES: usize = 256 << 20;

/// Rows that are turned into lines at a time.
const ROWS_AT_A_TIME: usize = 8192;

/// Why a run ends without a result.
pub enum Stop {
    /// A refusal of the library, and what it says in words.
    Refused(u32, String),
    /// What a file has that cannot be handed to the library.
    Data(String),
    /// What the operating system refused.
    System(String),
}

impl Stop {
    /// An error of the operating system, with what was tried.
    pub fn system(tried: &str, error: io::Error) -> Stop {
        Stop::System(format!("{tried}: {error}"))
    }
}

fn main() -> ExitCode {
    let command = match options::parse(std::env::args_os().skip(1)) {
        Ok(Command::Help) => {
            print!("{USAGE}");
            return ExitCode::SUCCESS;
        }
        Ok(command) => command,
        Err(message) => {
            eprint!("luhetami: {message}\n{USAGE}");
            return ExitCode::from(BAD_USAGE);
        }
    };
    let worker = std::thread::Builder::new().stack_size(STACK_BYTES).spawn(move || run(&command));
    let end = match worker {
        Ok(worker) => worker.join().expect("the worker's panic has been told"),
        Err(error) => Err(Stop::system("starting a thread", error)),
    };
    match end {
        Ok(()) => ExitCode::SUCCESS,
        Err(Stop::Refused(refusal, words)) => {
            eprintln!("{words}");
            ExitCode::from(refusal as u8)
        }
        Err(Stop::Data(words)) => {
            eprintln!("luhetami: {words}");
            ExitCode::from(BAD_DATA)
        }
        Err(Stop::System(words)) => {
            eprintln!("luhetami: {words}");
            ExitCode::from(SYSTEM_ERROR)
        }
    }
}

fn run(command: &Command) -> Result<(), Stop> {
    match command {
        Command::Expand(options) => expand(options),
        Command::Moving(options) => moving::run(options),
        Command::Pages(options) => pages::run(options),
        Command::Count(options) => count::run(options),
        Command::Check(options) => check::run(options),
        Command::Help => Ok(()),
    }
}

/// Reads, expands and writes.
fn expand(options: &Options) -> Result<(), Stop> {
    let root = input::read_sheet(&options.scene)?;
    let (library, files) = input::read_library(&options.library)?;
    let sheets = Sheets { root_rows: root.len() / ROW_WORDS, library_rows: library.len() / ROW_WORDS, files };

    let mut limits = Limits {
        nodes: options.nodes.unwrap_or(MOST_NODES),
        depth: options.depth.unwrap_or(MOST_DEPTH),
        rows: options.rows.unwrap_or_else(|| first_rows(&sheets)),
    };
    let (answer, room) = loop {
        let mut room = Room::new(&limits).map_err(Stop::System)?;
        let answer = library::expand(&root, &library, &limits, &mut room);
        if answer.refusal() == library::TOO_MANY_ROWS && options.rows.is_none() && limits.rows < MOST_ROWS {
            limits.rows = limits.rows.saturating_mul(4).min(MOST_ROWS);
            continue;
        }
        break (answer, room);
    };
    let words = answer.in_words(&limits, &sheets);
    if answer.refusal() != 0 {
        return Err(Stop::Refused(answer.refusal(), words));
    }
    if let Some(path) = &options.ledger {
        write_entries(path, &room.ledger[..3 * answer.nodes()], 3)?;
    }
    if let Some(path) = &options.scopes {
        write_entries(path, &room.scopes[..5 * answer.scopes()], 5)?;
    }
    let rows = &room.out[..ROW_WORDS * answer.rows()];
    if let Some(path) = &options.urls {
        urls::write(path, rows)?;
    }
    write_rows(rows)?;
    eprintln!("{words}");
    Ok(())
}

/// K for the first call, where it isn't given. After refusal 10 it is four times that, up to the cap. What is accepted then is
/// what K at its cap gives: `SameFlight` of crates/expansion_operation/specs/Limits.antt.
fn first_rows(sheets: &Sheets) -> u32 {
    (4 * (sheets.root_rows + sheets.library_rows)).clamp(4096, MOST_ROWS as usize) as u32
}

/// The rows in Lines form, to standard output.
fn write_rows(words: &[u32]) -> Result<(), Stop> {
    let mut lines = vec![0; ROWS_AT_A_TIME * ROW_BYTES];
    let mut output = io::stdout().lock();
    for piece in words.chunks(ROWS_AT_A_TIME * ROW_WORDS) {
        let count = library::write_lines(piece, &mut lines)
            .map_err(|refusal| Stop::Refused(refusal, format!("refused {refusal}: the output's rows")))?;
        output.write_all(&lines[..count]).map_err(|e| Stop::system("writing standard output", e))?;
    }
    output.flush().map_err(|e| Stop::system("writing standard output", e))
}

/// The ledger or the scopes: an entry to a line, each number right-justified in 11 bytes.
fn write_entries(path: &str, words: &[u32], columns: usize) -> Result<(), Stop> {
    let write = || -> io::Result<()> {
        let mut file = BufWriter::new(File::create(path)?);
        for entry in words.chunks(columns) {
            for word in entry {
                write!(file, "{word:11}")?;
            }
            writeln!(file)?;
        }
        file.flush()
    };
    write().map_err(|e| Stop::system(&format!("writing {path}"), e))
}
