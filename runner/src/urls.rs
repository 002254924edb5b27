//! Which url supplied each extern of an output (document 02, wish 1).

use std::fs::File;
use std::io::{self, BufWriter, Write};

use crate::library::ROW_WORDS;
use crate::Stop;

/// The kinds of rows that are looked at.
const EXTERN: u32 = 8;
const URL: u32 = 10;
/// "None" of document 01.
const NONE: u32 = u32::MAX;

/// An extern of the output: its name, how many urls it has, and the one that is marked, by index, base and fragment.
struct Supplied {
    name: u32,
    urls: usize,
    taken: Option<(usize, u32, u32)>,
}

/// The externs of some rows, in order.
fn externs(rows: &[u32]) -> Vec<Supplied> {
    let mut found: Vec<Supplied> = Vec::new();
    for row in rows.chunks_exact(ROW_WORDS) {
        match (row[0], found.last_mut()) {
            (EXTERN, _) => found.push(Supplied { name: row[1], urls: 0, taken: None }),
            (URL, Some(last)) => {
                if row[3] == 1 {
                    last.taken = Some((last.urls, row[1], row[2]));
                }
                last.urls += 1;
            }
            _ => {}
        }
    }
    found
}

/// Writes a line for each extern of the output's rows.
pub fn write(path: &str, rows: &[u32]) -> Result<(), Stop> {
    let write = || -> io::Result<()> {
        let mut file = BufWriter::new(File::create(path)?);
        for (id, supplied) in externs(rows).iter().enumerate() {
            write!(file, "extern {id}, name {}: ", supplied.name)?;
            match supplied.taken {
                None => writeln!(file, "none of {} urls", supplied.urls)?,
                Some((at, base, NONE)) => writeln!(file, "url {at} of {}, base {base}", supplied.urls)?,
                Some((at, base, name)) => writeln!(file, "url {at} of {}, base {base}, fragment {name}", supplied.urls)?,
            }
        }
        file.flush()
    };
    write().map_err(|e| Stop::system(&format!("writing {path}"), e))
}
