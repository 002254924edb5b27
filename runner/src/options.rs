//! The arguments.

use std::ffi::OsString;

use crate::library::Form;
use crate::{check, count, moving, pages};

pub const USAGE: &str = "\
usage: luhetami [OPTION]... SCENE.lines
       luhetami moving WIDTH COUNTS
       luhetami pages DOCUMENT.lines LEDGER
       luhetami count [--protocol 1|2|both] --names N,N,.. DOCUMENT.lines..
       luhetami check [--form FORM] FILE.lines

Expands the prototypes of a scene and writes the expanded rows, in Lines form, to standard output; the answer, in words and
in numbers, goes to standard error. SCENE.lines may be - for standard input.

  --nodes N             at most N nodes; without it 4000000, the cap
  --depth D             nested at most D deep; without it 512, the cap
  --rows K              at most K charges; without it as many as are needed, up to 16777216, the cap
  --library BASE=FILE   a document that the urls of the scene, or of another document of the library, name by the base's number; at
                        most 64 bases are looked for in all; may be given again, in the library's order;
                        of several with the same base the last counts, so a corrected file is added behind the old one:
                        --library 63=whales.lines --library 63=whales-corrected.lines
  --ledger FILE         write the ledger: scope, document and source id of each node
  --scopes FILE         write the scopes: kind, document, PROTO id, interface index and opening scope of each
  --urls FILE           write, for each extern of the output, which of its urls supplied the prototype: its index, base and fragment
  --help                print this

Which of several addresses a prototype came from is told by --urls; ids and indexes count from 0. For example:

  $ luhetami --urls urls.txt --library 63=scenes/library/whales.lines --library 78=scenes/library/belugas.lines \\
      scenes/which-address.lines > expanded.lines
  $ cat urls.txt
  extern 0, name 79: none of 1 urls
  extern 1, name 59: url 3 of 5, base 63, fragment 64

A shared library may be several files that name one another; a prototype of one is expanded with those of the others. For example:

  $ luhetami --urls urls.txt --library 84=scenes/library/surveys.lines --library 85=scenes/library/animals.lines \\
      --library 87=scenes/library/flukes.lines scenes/shared-library.lines > expanded.lines
  $ cat urls.txt
  extern 0, name 59: url 1 of 2, base 85, fragment 64

luhetami moving prints, for each leg of a season, its count and, from the WIDTH-th leg on, the total of the last WIDTH counts,
with the first of the largest totals marked. COUNTS has one count to a line, at most 4294967295 each; it may be - for standard
input. WIDTH is 1 to 64. For example, three legs at a time:

  $ luhetami moving 3 scenes/season.counts
  leg  count  total
    1      3
    2      0
    3      2      5
    4      5      7
    5      1      8  largest
  ..
  accepted: totals 10, largest 8 of legs 3 to 5, at place 2 [0 10 8 2]

luhetami pages prints the logbook of an expanded document: pages of 60 lines of 72 bytes, each with its number and 59 nodes, in
the order of their ids: node id, scope, document, source id, type name and DEF name, if any. LEDGER is what --ledger wrote. Either
may be - for standard input. For example:

  $ luhetami --ledger ledger.txt scenes/defaults.lines > expanded.lines
  $ luhetami pages expanded.lines ledger.txt
                                                                         1
             0           1           0           0          13          21
             1           0           0           1           7
  ..
  accepted: nodes 7, pages 1, bytes 4380 [0 4380]

luhetami count prints, for each expanded document, how many nodes of each type name it has: under protocol 1 every mention counts,
each top Node statement and each id in a value of a reached node; under protocol 2 each reached node counts once. The totals come
last. At most 4096 documents and 64 names, no two the same; protocol 2 without --protocol. For example, a pod that both windows hold:

  $ luhetami count --protocol both --names 7,13 scenes/count/both-windows.lines scenes/count/two-pods.lines
  document                         protocol  7  13
  scenes/count/both-windows.lines         1  2   2
  scenes/count/both-windows.lines         2  1   2
  scenes/count/two-pods.lines             1  2   2
  scenes/count/two-pods.lines             2  2   2
  total                                   1  4   4
  total                                   2  3   4
  accepted: documents 2, rows 35, names 2 [0 2]

luhetami check tells whether the rows of a file fit a form, or else the first row, from 0, that doesn't. FORM is root (without
--form), library, expanded, documents (expanded documents one after another) or protos (protos without body statements). For example:

  $ luhetami check scenes/both-windows.lines
  scenes/both-windows.lines: 21 rows, a root sheet [1 0]
  $ luhetami check --form expanded scenes/both-windows.lines
  luhetami: scenes/both-windows.lines: not an expanded document: row 13, counted from 0, doesn't fit: 2 16 17 1 0 0 0 0 [0 13]

The exit status is 0 where the call is accepted, the refusal's number (1 to 10, 12 to 14, 17, 18, 25 to 29) where it is refused, 64 where the
arguments are wrong, 65 where a line of COUNTS or LEDGER has no numbers or a file does not fit its form, and 74 where the operating
system refuses something.
";

pub struct Options {
    pub nodes: Option<u32>,
    pub depth: Option<u32>,
    pub rows: Option<u32>,
    /// Base and file.
    pub library: Vec<(u32, String)>,
    pub ledger: Option<String>,
    pub scopes: Option<String>,
    pub urls: Option<String>,
    pub scene: String,
}

pub enum Command {
    Expand(Options),
    Moving(moving::Options),
    Pages(pages::Options),
    Count(count::Options),
    Check(check::Options),
    Help,
}

/// The command of some arguments, or what is wrong with them.
pub fn parse(arguments: impl Iterator<Item = OsString>) -> Result<Command, String> {
    let mut arguments = arguments.map(|a| a.into_string().map_err(|a| format!("not UTF-8: {a:?}")));
    let mut options = Options {
        nodes: None,
        depth: None,
        rows: None,
        library: Vec::new(),
        ledger: None,
        scopes: None,
        urls: None,
        scene: String::new(),
    };
    let mut scenes = Vec::new();
    let mut first = true;
    while let Some(argument) = arguments.next() {
        let argument = argument?;
        if std::mem::take(&mut first) {
            match argument.as_str() {
                "moving" => return parse_moving(arguments),
                "pages" => return parse_pages(arguments),
                "count" => return parse_count(arguments),
                "check" => return parse_check(arguments),
                _ => {}
            }
        }
        if argument == "--help" {
            return Ok(Command::Help);
        }
        if !argument.starts_with("--") {
            scenes.push(argument);
            continue;
        }
        let mut value = || arguments.next().unwrap_or_else(|| Err(format!("{argument} wants a value")));
        match argument.as_str() {
            "--nodes" => options.nodes = Some(number(&value()?)?),
            "--depth" => options.depth = Some(number(&value()?)?),
            "--rows" => options.rows = Some(number(&value()?)?),
            "--ledger" => options.ledger = Some(value()?),
            "--scopes" => options.scopes = Some(value()?),
            "--urls" => options.urls = Some(value()?),
            "--library" => {
                let text = value()?;
                let (base, file) = text.split_once('=').ok_or(format!("--library wants BASE=FILE, not {text}"))?;
                options.library.push((number(base)?, file.to_owned()));
            }
            _ => return Err(format!("unknown option {argument}")),
        }
    }
    match <[String; 1]>::try_from(scenes) {
        Ok([scene]) => Ok(Command::Expand(Options { scene, ..options })),
        Err(scenes) => Err(format!("one scene is wanted, not {}", scenes.len())),
    }
}

/// The arguments of `moving`.
fn parse_moving(arguments: impl Iterator<Item = Result<String, String>>) -> Result<Command, String> {
    let arguments = arguments.collect::<Result<Vec<String>, String>>()?;
    if arguments.iter().any(|argument| argument == "--help") {
        return Ok(Command::Help);
    }
    match <[String; 2]>::try_from(arguments) {
        Ok([width, file]) => Ok(Command::Moving(moving::Options { width: number(&width)?, file })),
        Err(arguments) => Err(format!("moving wants a width and a file, not {} arguments", arguments.len())),
    }
}

/// The arguments of `count`.
fn parse_count(mut arguments: impl Iterator<Item = Result<String, String>>) -> Result<Command, String> {
    let mut options = count::Options { protocols: vec![2], names: Vec::new(), files: Vec::new() };
    let mut named = false;
    while let Some(argument) = arguments.next() {
        let argument = argument?;
        let mut value = || arguments.next().unwrap_or_else(|| Err(format!("{argument} wants a value")));
        match argument.as_str() {
            "--help" => return Ok(Command::Help),
            "--protocol" => {
                options.protocols = match value()?.as_str() {
                    "1" => vec![1],
                    "2" => vec![2],
                    "both" => vec![1, 2],
                    other => return Err(format!("--protocol wants 1, 2 or both, not {other}")),
                }
            }
            "--names" => {
                options.names = value()?.split(',').map(number).collect::<Result<Vec<u32>, String>>()?;
                named = true;
            }
            option if option.starts_with("--") => return Err(format!("unknown option {option}")),
            file => options.files.push(file.to_owned()),
        }
    }
    if !named {
        return Err(String::from("count wants --names"));
    }
    Ok(Command::Count(options))
}

/// The arguments of `pages`.
fn parse_pages(arguments: impl Iterator<Item = Result<String, String>>) -> Result<Command, String> {
    let arguments = arguments.collect::<Result<Vec<String>, String>>()?;
    if arguments.iter().any(|argument| argument == "--help") {
        return Ok(Command::Help);
    }
    match <[String; 2]>::try_from(arguments) {
        Ok([document, ledger]) => Ok(Command::Pages(pages::Options { document, ledger })),
        Err(arguments) => Err(format!("pages wants a document and a ledger, not {} arguments", arguments.len())),
    }
}

/// The arguments of `check`.
fn parse_check(mut arguments: impl Iterator<Item = Result<String, String>>) -> Result<Command, String> {
    let mut form = Form::Root;
    let mut files = Vec::new();
    while let Some(argument) = arguments.next() {
        let argument = argument?;
        match argument.as_str() {
            "--help" => return Ok(Command::Help),
            "--form" => {
                let name = arguments.next().unwrap_or_else(|| Err(format!("{argument} wants a value")))?;
                form = Form::named(&name).ok_or(format!("no form: {name}"))?;
            }
            option if option.starts_with("--") => return Err(format!("unknown option {option}")),
            _ => files.push(argument),
        }
    }
    match <[String; 1]>::try_from(files) {
        Ok([file]) => Ok(Command::Check(check::Options { form, file })),
        Err(files) => Err(format!("check wants one file, not {}", files.len())),
    }
}

fn number(text: &str) -> Result<u32, String> {
    text.parse().map_err(|_| format!("not a number from 0 to {}: {text}", u32::MAX))
}
