//! Reading of scenes and library files.

use std::fs::File;
use std::io::{self, Read};
use std::time::{Duration, Instant};

use crate::answer::LibraryFile;
use crate::library::{self, MOST_SHEET_ROWS, ROW_BYTES, ROW_WORDS};
use crate::Stop;

/// How long a read is silent, and how often it tells its progress after that.
const SILENCE: Duration = Duration::from_secs(1);

/// The kind of the row that begins a file of a library.
const FILE_ROW: u32 = 12;

/// The words of a file in Lines form, for Expand: no more rows than it takes.
pub fn read_sheet(path: &str) -> Result<Vec<u32>, Stop> {
    read_rows(path, MOST_SHEET_ROWS)
}

/// The words of an expanded document in Lines form, of any length.
pub fn read_document(path: &str) -> Result<Vec<u32>, Stop> {
    read_rows(path, usize::MAX / ROW_BYTES - 1)
}

fn read_rows(path: &str, most: usize) -> Result<Vec<u32>, Stop> {
    let lines = read_bytes(path, most).map_err(|e| Stop::system(&format!("reading {path}"), e))?;
    let rows = (lines.len() / ROW_BYTES).min(most);
    let mut words = vec![0; rows * ROW_WORDS];
    match library::read_lines(&lines, &mut words) {
        Ok(_) => Ok(words),
        Err((refusal, place)) => {
            let what = match refusal {
                12 if lines.len() > most * ROW_BYTES => format!("more than {most} rows"),
                12 => format!("{} bytes, not a multiple of {ROW_BYTES}", lines.len()),
                13 => format!("line {place}, counted from 0, isn't eight numbers in {ROW_BYTES} bytes"),
                _ => String::from("its lines"),
            };
            Err(Stop::Refused(refusal, format!("refused {refusal}: {path}: {what} [{refusal} {place} 0]")))
        }
    }
}

/// The words of a library: for each file a row with its base, then its document. And where each file stands in it.
pub fn read_library(files: &[(u32, String)]) -> Result<(Vec<u32>, Vec<LibraryFile>), Stop> {
    let mut words = Vec::new();
    let mut found = Vec::new();
    for (base, path) in files {
        found.push(LibraryFile { path: path.clone(), first_row: words.len() / ROW_WORDS });
        words.extend([FILE_ROW, *base, 0, 0, 0, 0, 0, 0]);
        words.extend(read_sheet(path)?);
    }
    Ok((words, found))
}

/// A file, or standard input for `-`.
fn open(path: &str) -> io::Result<Box<dyn Read>> {
    Ok(match path {
        "-" => Box::new(io::stdin().lock()),
        _ => Box::new(File::open(path)?),
    })
}

/// All bytes of a file, or of standard input for `-`.
pub fn read_text(path: &str) -> io::Result<Vec<u8>> {
    let mut text = Vec::new();
    open(path)?.read_to_end(&mut text)?;
    Ok(text)
}

/// The bytes of a file, or of standard input for `-`. More than so many rows are not read to their end: one byte past
/// the last row is as much refused (12) as all the others would be.
fn read_bytes(path: &str, most_rows: usize) -> io::Result<Vec<u8>> {
    let mut source = open(path)?;
    let most = most_rows * ROW_BYTES + 1;
    let mut bytes = Vec::new();
    let mut piece = vec![0; 1 << 20];
    let mut told = Instant::now();
    while bytes.len() < most {
        let wanted = piece.len().min(most - bytes.len());
        match source.read(&mut piece[..wanted]) {
            Ok(0) => break,
            Ok(count) => bytes.extend(&piece[..count]),
            Err(error) if error.kind() == io::ErrorKind::Interrupted => {}
            Err(error) => return Err(error),
        }
        if told.elapsed() >= SILENCE {
            eprintln!("reading {path}: {} rows so far", bytes.len() / ROW_BYTES);
            told = Instant::now();
        }
    }
    Ok(bytes)
}
