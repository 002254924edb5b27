//! `luhetami check`: whether a file fits a form, and where it ceases to.

use crate::input;
use crate::library::{self, Form, ROW_WORDS};
use crate::Stop;

pub struct Options {
    pub form: Form,
    pub file: String,
}

/// Reads the file, has it checked, and tells.
pub fn run(options: &Options) -> Result<(), Stop> {
    let words = input::read_document(&options.file)?;
    match library::check(&words, options.form) {
        None => {
            println!("{}: {} rows, {} [1 0]", options.file, words.len() / ROW_WORDS, options.form.in_words());
            Ok(())
        }
        Some(row) => Err(Stop::Data(format!("{}: {} [0 {row}]", options.file, misfit(&words, options.form, row)))),
    }
}

/// What doesn't fit, in words: the row with its numbers, or that rows are missing at the end.
pub fn misfit(words: &[u32], form: Form, row: usize) -> String {
    let rows = words.len() / ROW_WORDS;
    if row == rows {
        return format!("not {}: it ends early, after {rows} rows", form.in_words());
    }
    let numbers: Vec<String> = words[ROW_WORDS * row..][..ROW_WORDS].iter().map(u32::to_string).collect();
    format!("not {}: row {row}, counted from 0, doesn't fit: {}", form.in_words(), numbers.join(" "))
}
