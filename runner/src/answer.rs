//! The library's answer, in words beside its numbers.

use crate::library::{Limits, MOST_DEPTH, MOST_NODES, MOST_ROWS, MOST_SHEET_ROWS};

/// The seven words: refusal, first place, second place, nodes, scopes, charges, rows of out.
pub struct Answer(pub [u32; 7]);

/// What was handed in.
pub struct Sheets {
    pub root_rows: usize,
    pub library_rows: usize,
    pub files: Vec<LibraryFile>,
}

/// A file of the library: its name, and the place of the row that has its base.
pub struct LibraryFile {
    pub path: String,
    pub first_row: usize,
}

impl Answer {
    pub fn refusal(&self) -> u32 {
        self.0[0]
    }

    pub fn nodes(&self) -> usize {
        self.0[3] as usize
    }

    pub fn scopes(&self) -> usize {
        self.0[4] as usize
    }

    pub fn rows(&self) -> usize {
        self.0[6] as usize
    }

    /// What the answer says, and its seven numbers.
    pub fn in_words(&self, limits: &Limits, sheets: &Sheets) -> String {
        let [refusal, first, second, nodes, scopes, charges, rows] = self.0;
        let words = match refusal {
            0 => format!("accepted: nodes {nodes}, scopes {scopes}, charges {charges}, rows {rows}"),
            _ => format!("refused {refusal}: {}", reason(refusal, first, second, limits, sheets)),
        };
        let numbers = self.0.map(|number| number.to_string()).join(" ");
        format!("{words} [{numbers}]")
    }
}

fn reason(refusal: u32, first: u32, second: u32, limits: &Limits, sheets: &Sheets) -> String {
    let document = || sheets.document(first);
    match refusal {
        1 => format!("a limit over its cap: {MOST_NODES} nodes, {MOST_DEPTH} deep, {MOST_ROWS} rows"),
        2 => format!("a sheet of more than {MOST_SHEET_ROWS} rows"),
        3 => sheets.misfit(first, second as usize),
        4 => format!("{}, EXTERNPROTO id {second} leads nowhere", document()),
        5 => format!("{}, node id {second} leads nowhere", document()),
        6 => format!("{}, PROTO id {second} leads nowhere", document()),
        7 => format!("{}, the body of PROTO {second} has no node", document()),
        8 => format!("more than {} nodes", limits.nodes),
        9 => format!("nesting deeper than {}", limits.depth),
        10 => format!("more than {} charges", limits.rows),
        _ => format!("places {first} and {second}"),
    }
}

impl Sheets {
    /// Document 0 is the root, document n the n-th file.
    fn document(&self, number: u32) -> String {
        match (number as usize).checked_sub(1).and_then(|at| self.files.get(at)) {
            Some(file) => format!("document {number} ({})", file.path),
            None => format!("document {number}"),
        }
    }

    /// The first row that doesn't fit, of the root (0) or the library (1).
    fn misfit(&self, sheet: u32, row: usize) -> String {
        let (name, rows) = if sheet == 0 { ("root", self.root_rows) } else { ("library", self.library_rows) };
        if row >= rows {
            return format!("the {name} ends early, after {rows} rows");
        }
        match self.files.iter().rev().find(|file| file.first_row <= row).filter(|_| sheet == 1) {
            Some(file) if file.first_row == row => format!("library row {row}, before {}, doesn't fit", file.path),
            Some(file) => format!("library row {row}, row {} of {}, doesn't fit", row - file.first_row - 1, file.path),
            None => format!("{name} row {row} doesn't fit"),
        }
    }
}
