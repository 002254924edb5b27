//! Comparison of the expansion of document 01 with the original Rust, and frames for a program under test.

mod automaton;
mod bench;
mod bench_files;
mod bound;
mod call;
mod charges;
mod checks;
mod closure;
mod count;
#[cfg(feature = "library")]
mod coverage;
mod flights;
mod frames;
mod grammar;
mod growth;
#[cfg(feature = "library")]
mod held;
#[cfg(feature = "library")]
mod library;
mod linked;
mod memory;
mod merged;
mod moving;
mod mutants;
mod operation;
mod output;
mod pages;
mod pairs;
mod picks;
mod random;
mod reckon;
mod replay;
mod rows;
mod rust;
mod scenes;
mod shown;
mod shrink;
mod spoil;
mod steps;
mod sweeps;
mod tally;
mod translate;
mod tree;
mod versus;

use std::process::ExitCode;

const USAGE: &str = "\
compare flights                            the flights and examples of document 01 and its readings
compare original COUNT SEED [FROM]         cases FROM and on, against the original
compare sweeps COUNT SEED                  COUNT scenes with every K, every N and every D
compare large                              large scenes, against the original
compare mutants COUNT SEED                 every mutant over the families and COUNT random cases
compare case NUMBER SEED                   one case and both answers
compare frames write FILE COUNT SEED [--small] [--caps]
compare frames check CASES ANSWERS
compare frames mutants COUNT SEED          every mutant over COUNT frames, every other one small
compare frames answer CASES ANSWERS [MUTANT]
compare replay FOLDER                      write the program `replay`'s stdin and stdout, each case checked
compare pairs COUNT SEED                   pairs of limits, at least COUNT: by the linked library, by the reckoning where none is
compare pairs mutants COUNT SEED           every reckoning in which a limit shows, over at least COUNT pairs
compare library COUNT SEED                 the linked static library (feature `library`)
compare moving mutants COUNT SEED          moving totals: every broken reckoning over the small runs and COUNT random ones
compare moving library COUNT SEED          moving totals: the linked static library
compare pages mutants COUNT SEED           pages: every broken reckoning over the numbers of nodes and COUNT random documents
compare pages library COUNT SEED           pages: the linked static library
compare count mutants COUNT SEED           counts: every broken reckoning over the small graphs and COUNT random sheets
compare count library COUNT SEED           counts: the linked static library
compare check mutants COUNT SEED           the check of a sheet: every broken reckoning over the small sheets and COUNT random ones
compare check library COUNT SEED           the check of a sheet: the linked static library
compare bench [PART]                       times of the original, the linked library and copying; scenes whose name has PART
compare bench spin PART SECONDS            the library's calls alone, for a profiler
compare bench small PART COUNT             the same on scenes that fit the caches, so many calls: time a node
compare growth [PART]                      scenes at sizes that grow by four: the linked library's times; scenes whose name has PART
compare growth at NAME N                   one call on a scene over a number, for a profiler
compare growth counted [PART]              the same scenes by instructions, counted by valgrind
compare growth search SECONDS SEED [charged] random scenes whose names and ids meet, for so long: the worst growth";

const FLAGS: [&str; 2] = ["--small", "--caps"];

fn main() -> ExitCode {
    // Copies nest up to 512 deep on both sides.
    let worker = std::thread::Builder::new().stack_size(512 << 20).spawn(command).unwrap();
    match worker.join().unwrap() {
        Ok(0) => ExitCode::SUCCESS,
        Ok(_) => ExitCode::FAILURE,
        Err(message) => {
            eprintln!("{message}");
            ExitCode::from(2)
        }
    }
}

/// Runs the command; the number of differences.
fn command() -> Result<u64, String> {
    let args: Vec<String> = std::env::args().skip(1).collect();
    let args: Vec<&str> = args.iter().map(String::as_str).collect();
    let number = |text: &str| text.parse::<u64>().map_err(|_| format!("not a number: {text}"));
    match args[..] {
        ["original", count, seed] => Ok(versus::run(number(count)?, number(seed)?, 0)),
        ["original", count, seed, from] => Ok(versus::run(number(count)?, number(seed)?, number(from)?)),
        ["sweeps", count, seed] => Ok(sweeps::run(number(count)?, number(seed)?)),
        ["case", at, seed] => {
            let call = versus::case(number(seed)?, number(at)?);
            let reckoned = reckon::reckon(&call, None);
            let original = versus::against_original(&call, &reckoned);
            println!("{}", versus::show(&call));
            println!("{:?}\nagainst the original: {original:?}", reckoned.answer);
            Ok(0)
        }
        ["replay", folder] => replay::run(folder),
        ["flights"] => Ok(flights::run()),
        ["large"] => Ok(versus::large()),
        ["mutants", count, seed] => Ok(mutants::run(number(count)?, number(seed)?)),
        ["frames", "write", path, count, seed, ref flags @ ..] if flags.iter().all(|f| FLAGS.contains(f)) => {
            let has = |flag| flags.contains(&flag);
            let batch = frames::Batch {
                count: number(count)?,
                seed: number(seed)?,
                small: has("--small"),
                caps: has("--caps"),
            };
            frames::write(path, &batch).map_err(|e| e.to_string())?;
            Ok(0)
        }
        ["frames", "mutants", count, seed] => Ok(frames::mutants(number(count)?, number(seed)?)),
        ["frames", "check", cases, answers] => frames::check(cases, answers).map_err(|e| e.to_string()),
        ["frames", "answer", cases, answers, ref mutant @ ..] if mutant.len() < 2 => {
            let mutant = mutant.first().map(|name| mutants::named(name)).transpose()?;
            frames::answer(cases, answers, mutant).map_err(|e| e.to_string())?;
            Ok(0)
        }
        ["moving", "mutants", count, seed] => Ok(operation::mutants::<moving::Moving>(number(count)?, number(seed)?)),
        ["pages", "mutants", count, seed] => Ok(operation::mutants::<pages::Pages>(number(count)?, number(seed)?)),
        ["count", "mutants", count, seed] => Ok(operation::mutants::<count::Count>(number(count)?, number(seed)?)),
        ["check", "mutants", count, seed] => Ok(operation::mutants::<checks::Checks>(number(count)?, number(seed)?)),
        ["bench"] => Ok(bench::run("") + growth::run("")),
        ["bench", "spin", part, seconds] => Ok(bench::spin(part, number(seconds)?)),
        ["bench", "small", part, count] => Ok(bench::small(part, number(count)?)),
        ["bench", part] => Ok(bench::run(part) + growth::run(part)),
        ["growth"] => Ok(growth::run("")),
        ["growth", "search", seconds, seed] if linked::LINKED => {
            Ok(growth::search::run(number(seconds)?, number(seed)?, false))
        }
        ["growth", "search", seconds, seed, "charged"] if linked::LINKED => {
            Ok(growth::search::run(number(seconds)?, number(seed)?, true))
        }
        ["growth", "at", name, n] if linked::LINKED => growth::at(name, number(n)? as u32),
        ["growth", "counted"] if linked::LINKED => growth::counted(""),
        ["growth", "counted", part] if linked::LINKED => growth::counted(part),
        ["growth", part] => Ok(growth::run(part)),
        ["pairs", count, seed] => Ok(pairs::run(number(count)?, number(seed)?)),
        ["pairs", "mutants", count, seed] => Ok(pairs::mutants(number(count)?, number(seed)?)),
        #[cfg(feature = "library")]
        ["library", count, seed] => Ok(library::run(number(count)?, number(seed)?)),
        #[cfg(feature = "library")]
        ["moving", "library", count, seed] => Ok(operation::library::<moving::Moving>(number(count)?, number(seed)?)),
        #[cfg(feature = "library")]
        ["pages", "library", count, seed] => Ok(operation::library::<pages::Pages>(number(count)?, number(seed)?)),
        #[cfg(feature = "library")]
        ["count", "library", count, seed] => Ok(operation::library::<count::Count>(number(count)?, number(seed)?)),
        #[cfg(feature = "library")]
        ["check", "library", count, seed] => Ok(operation::library::<checks::Checks>(number(count)?, number(seed)?)),
        _ => Err(USAGE.into()),
    }
}
