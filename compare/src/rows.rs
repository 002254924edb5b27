//! Rows of a sheet: eight words, the first of which is the kind.

/// One row.
pub type Row = [u32; 8];

/// The word for "none"; names and ids are below it.
pub const NONE: u32 = u32::MAX;
/// Type tags are below this number.
pub const TAGS: u32 = 42;
/// Most rows that Expand takes in one sheet.
pub const MOST_ROWS: usize = 1_048_576;

pub const DOCUMENT: u32 = 1;
pub const NODE: u32 = 2;
pub const FIELD: u32 = 3;
pub const INTERFACE: u32 = 4;
pub const STATEMENT: u32 = 5;
pub const ORDER: u32 = 6;
pub const PROTO: u32 = 7;
pub const EXTERN: u32 = 8;
pub const ID: u32 = 9;
pub const URL: u32 = 10;
pub const TOP: u32 = 11;
pub const FILE: u32 = 12;
pub const INSTANCE: u32 = 13;
pub const ASSOCIATION: u32 = 14;

/// Body-order marks (column a of an `ORDER` row).
pub const MARK_FIELD: u32 = 0;
pub const MARK_INTERFACE: u32 = 1;
pub const MARK_STATEMENT: u32 = 2;

/// The rows of a sheet whose length is a multiple of eight.
pub fn rows_of(words: &[u32]) -> Vec<Row> {
    words.chunks_exact(8).map(|c| c.try_into().unwrap()).collect()
}

/// The words of some rows.
pub fn words_of(rows: &[Row]) -> Vec<u32> {
    rows.iter().flatten().copied().collect()
}

/// Rows as text, one to a line, in the form of document 01's lines.
pub fn show(words: &[u32]) -> String {
    let mut text = String::new();
    for row in words.chunks(8) {
        let line: Vec<String> = row.iter().map(|w| if *w == NONE { "none".into() } else { w.to_string() }).collect();
        text.push_str("    ");
        text.push_str(&line.join(" "));
        text.push('\n');
    }
    text
}
