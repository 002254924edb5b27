//! `luhetami moving`: the moving totals of a season's legs, as a table.

use std::fmt::Write as _;
use std::io::{self, Write};

use crate::input;
use crate::library::{self, Moving};
use crate::Stop;

/// The largest count that is taken.
const MOST_COUNT: u64 = 4_294_967_295;

/// The refusals that are told in other words than their number.
const WRONG_WIDTH: u32 = 25;
const LARGE_COUNT: u32 = 26;

const MARK: &str = "  largest";

pub struct Options {
    pub width: u32,
    pub file: String,
}

/// Reads the counts, has them summed, and prints the table.
pub fn run(options: &Options) -> Result<(), Stop> {
    let counts = read_counts(&options.file)?;
    let mut totals = vec![0; counts.len()];
    let moving = library::moving(&counts, options.width, &mut totals);
    let words = in_words(&moving, options, &counts);
    if moving.refusal != 0 {
        return Err(Stop::Refused(moving.refusal, words));
    }
    let totals = &totals[..moving.totals as usize];
    let text = table(&counts, totals, &moving);
    let mut out = io::stdout().lock();
    out.write_all(text.as_bytes())
        .and_then(|()| out.flush())
        .map_err(|e| Stop::system("writing standard output", e))?;
    eprintln!("{words}");
    Ok(())
}

/// The counts of a file, one to a line. Spaces around a count, and a last line without an end, do no harm.
fn read_counts(path: &str) -> Result<Vec<u64>, Stop> {
    let text = input::read_text(path).map_err(|e| Stop::system(&format!("reading {path}"), e))?;
    let lines = text.strip_suffix(b"\n").unwrap_or(&text);
    if lines.is_empty() {
        return Ok(Vec::new());
    }
    let count = |(at, line): (usize, &[u8])| {
        number(line.trim_ascii()).ok_or_else(|| {
            let line = String::from_utf8_lossy(line);
            Stop::Data(format!("{path}: line {} is no number from 0 to {}: {line:?}", at + 1, u64::MAX))
        })
    };
    lines.split(|byte| *byte == b'\n').enumerate().map(count).collect()
}

/// A number in digits.
fn number(digits: &[u8]) -> Option<u64> {
    let digits = std::str::from_utf8(digits).ok()?;
    let plain = digits.bytes().all(|digit| digit.is_ascii_digit());
    plain.then(|| digits.parse().ok()).flatten()
}

/// The legs, from 1 on, with their counts and totals.
fn table(counts: &[u64], totals: &[u64], moving: &Moving) -> String {
    let digits = |n: u64| n.to_string().len();
    let widest = |numbers: &[u64], name: &str| digits(numbers.iter().copied().max().unwrap_or(0)).max(name.len());
    let leg = digits(counts.len() as u64).max("leg".len());
    let count = widest(counts, "count");
    let total = widest(totals, "total");
    let first = counts.len() - totals.len();
    let mut text = format!("{:>leg$}  {:>count$}  {:>total$}\n", "leg", "count", "total");
    for (at, number) in counts.iter().enumerate() {
        write!(text, "{:>leg$}  {number:>count$}", at + 1).expect("a string has room");
        if let Some(place) = at.checked_sub(first).filter(|_| !totals.is_empty()) {
            let mark = if place as u64 == moving.place { MARK } else { "" };
            write!(text, "  {:>total$}{mark}", totals[place]).expect("a string has room");
        }
        text.push('\n');
    }
    text
}

/// What the answer says, and its four numbers. Legs and lines count from 1, the place from 0.
fn in_words(moving: &Moving, options: &Options, counts: &[u64]) -> String {
    let Moving { refusal, totals, largest, place } = *moving;
    let width = options.width;
    let words = match refusal {
        0 if totals == 0 => format!("accepted: {} legs, fewer than the width of {width}: no totals", counts.len()),
        0 => {
            let legs = match width {
                1 => format!("leg {}", place + 1),
                _ => format!("legs {} to {}", place + 1, place + width as u64),
            };
            format!("accepted: totals {totals}, largest {largest} of {legs}, at place {place}")
        }
        WRONG_WIDTH => format!("refused {refusal}: a width of {width} legs; it may be 1 to 64"),
        LARGE_COUNT => {
            let at = counts.iter().position(|count| *count > MOST_COUNT).unwrap_or(0);
            format!("refused {refusal}: {}: line {}, a count of {} is over {MOST_COUNT}", options.file, at + 1, counts[at])
        }
        _ => format!("refused {refusal}: too few lent totals"),
    };
    format!("{words} [{refusal} {totals} {largest} {place}]")
}
