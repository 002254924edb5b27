//! The comparison of `reckon` with the original, case by case, and the checks that need no original.

use crate::call::{Answer, Call, Expanded};
use crate::merged::merged;
use crate::random::Random;
use crate::reckon::{self, Reckoned};
use crate::rows::{self, rows_of, Row, URL};
use crate::rust;
use crate::scenes::{damage, families, free, large, MOST_CHARGES};
use crate::shrink::shrink;
use crate::tally::Tally;
use crate::{automaton, charges, closure, grammar, translate};

/// The case of a number: first every scene of the families, then random ones, one in eight of them damaged.
pub fn case(seed: u64, number: u64) -> Call {
    if number < families::total() {
        return families::scene(number).call(MOST_CHARGES);
    }
    let mut r = Random::new(seed, number);
    let most_nodes = r.of(&[3, 5, 8, 8, 12, 20]);
    let mut call = free::scene(&mut r, most_nodes).call(MOST_CHARGES);
    if r.below(8) == 0 {
        let in_library = !call.library.is_empty() && r.percent(40);
        damage::damage(&mut r, if in_library { &mut call.library } else { &mut call.root });
    }
    if r.below(64) == 0 {
        let in_library = r.percent(40);
        damage::mark(&mut r, if in_library { &mut call.library } else { &mut call.root });
    }
    call
}

/// One case with every check; the difference found, if any.
pub fn check(call: &Call, tally: &mut Tally) -> Result<(), String> {
    let reckoned = reckon::reckon(call, None);
    let answer = &reckoned.answer;
    tally.note(answer);
    places(call)?;
    let held = held(call, &reckoned);
    let asked = held.is_some() as u64;
    match by(&reckoned) {
        By::Nothing => {}
        By::Original => tally.compared += asked,
        By::Absent => {
            tally.by_is += 1;
            tally.absent += asked;
        }
        By::OneDocument => {
            tally.linked += 1;
            tally.merged += asked;
        }
    }
    held.unwrap_or(Ok(()))?;
    if asked > 0 {
        round_trip(call)?;
    }
    if let Ok(expanded) = answer {
        let seen = closure::check(call, expanded).map_err(|e| format!("demand 3: {e}"))?;
        tally.loops += seen.loops as u64;
        if seen.by_is != reckoned.bound.takes_default() {
            return Err("a default because of an IS: told by the steps or by the search, not by both".into());
        }
        let total = charges::by_parts(call, expanded);
        if total != Ok(expanded.charges as usize) {
            return Err(format!("{} charges step by step, {total:?} by parts", expanded.charges));
        }
    }
    Ok(())
}

/// The two checks of a sheet give the same place.
fn places(call: &Call) -> Result<(), String> {
    for (sheet, words) in [&call.root, &call.library].into_iter().enumerate() {
        let one = if sheet == 0 { grammar::root(words).err() } else { grammar::library(words).err() };
        let other = automaton::misfit(words, sheet == 1);
        if one != other {
            return Err(format!("sheet {sheet}: misfit at {one:?} by descent, at {other:?} by the automaton"));
        }
    }
    Ok(())
}

/// Rows to the original's document and back.
fn round_trip(call: &Call) -> Result<(), String> {
    let root = rows_of(&call.root);
    let library = rows_of(&call.library);
    let mut back = Vec::new();
    for (base, document) in translate::files(&library) {
        back.push([12, base[1..].parse().unwrap(), 0, 0, 0, 0, 0, 0]);
        back.extend(translate::rows(&document));
    }
    if translate::rows(&translate::document(&root)) != root || back != library {
        return Err("the rows do not come back from the original's document".into());
    }
    Ok(())
}

/// Refusals 1, 2, 3 and 10 stand before any comparison with the original.
pub fn stands_before(answer: &Answer) -> bool {
    matches!(answer, Err(r) if matches!(r.number, 1 | 2 | 3 | 10))
}

/// What the original is asked for a call.
#[derive(Clone, Copy, PartialEq)]
pub enum By {
    /// Nothing: a refusal stands before it.
    Nothing,
    /// The call itself.
    Original,
    /// A default is taken because of an IS: the call without the fields so bound.
    Absent,
    /// A file of the library declares an extern: the scene and its library as one document.
    OneDocument,
}

pub fn by(reckoned: &Reckoned) -> By {
    match reckoned {
        _ if stands_before(&reckoned.answer) => By::Nothing,
        _ if reckoned.linked => By::OneDocument,
        _ if reckoned.bound.takes_default() => By::Absent,
        _ => By::Original,
    }
}

/// Whether the original is the reference of a call: nothing stands before it, no file of the library declares an extern, and no
/// default is taken because of an IS.
pub fn has_original(reckoned: &Reckoned) -> bool {
    by(reckoned) == By::Original
}

/// The answer held against what the original is asked; nothing where it is not asked.
pub fn held(call: &Call, reckoned: &Reckoned) -> Option<Result<(), String>> {
    match by(reckoned) {
        By::Nothing if reckoned.linked => as_counted(call, reckoned).err().map(Err),
        By::Nothing => None,
        By::Original => Some(as_original(call, &reckoned.answer)),
        By::Absent => as_if_absent(call, reckoned),
        By::OneDocument => as_one_document(call, reckoned),
    }
}

/// The answer held against the original's; nothing where that is no reference.
pub fn against_original(call: &Call, reckoned: &Reckoned) -> Option<Result<(), String>> {
    has_original(reckoned).then(|| as_original(call, &reckoned.answer))
}

/// Where a file of the library declares an extern: the answer has the counts, the rows but for the marks, or the kind of refusal
/// of the scene as one document, and so the original's. Nothing where that document has too many rows.
fn as_one_document(call: &Call, reckoned: &Reckoned) -> Option<Result<(), String>> {
    let whole = merged(call)?;
    let truth = reckon::reckon(&whole, None);
    let same = match (&reckoned.answer, &truth.answer) {
        (Ok(a), Ok(b)) => {
            let counts = |e: &Expanded| (e.nodes, e.charges, e.scopes.len());
            counts(a) == counts(b) && unmarked(&a.out) == b.out
        }
        (Err(a), Err(b)) => a.number == b.number,
        _ => false,
    };
    if !same {
        return Some(Err("another answer than as one document".into()));
    }
    held(&whole, &truth)
}

/// Refusal 10 where a file of the library declares an extern: the scene as one document has it too.
fn as_counted(call: &Call, reckoned: &Reckoned) -> Result<(), String> {
    let ten = matches!(&reckoned.answer, Err(r) if r.number == 10);
    match merged(call) {
        Some(whole) if ten && reckon::expand(&whole, None) != reckoned.answer => {
            Err("10, but not as one document".into())
        }
        _ => Ok(()),
    }
}

/// Where a default is taken because of an IS: the answer held against that to the same call without those fields, every word
/// of it, and so against the original's. Nothing where such a field has a value in another scope.
pub fn as_if_absent(call: &Call, reckoned: &Reckoned) -> Option<Result<(), String>> {
    let without = reckoned.bound.without(call)?;
    let truth = reckon::reckon(&without, None);
    if truth.answer != reckoned.answer {
        return Some(Err("another answer than without the fields bound by IS to nothing".into()));
    }
    against_original(&without, &truth)
}

/// The rows without marks: "Comparison with the Rust ignores that column." (document 02, wish 1)
fn unmarked(rows: &[Row]) -> Vec<Row> {
    let url = |r: &Row| [r[0], r[1], r[2], 0, r[4], r[5], r[6], r[7]];
    rows.iter().map(|r| if r[0] == URL { url(r) } else { *r }).collect()
}

/// The answer has the original's rows, but for the marks, or its kind of refusal.
pub fn as_original(call: &Call, answer: &Answer) -> Result<(), String> {
    let original = rust::expand(&call.root, &call.library, call.max_nodes, call.max_depth);
    let ours = answer.as_ref().map(|e| unmarked(&e.out)).map_err(|r| r.number);
    match (&original, &ours) {
        (Ok(a), Ok(b)) if a == b => Ok(()),
        (Err(a), Err(b)) if a == b => Ok(()),
        (Ok(a), Ok(b)) => {
            let at = (0..).find(|i| a.get(*i) != b.get(*i)).unwrap();
            Err(format!("output row {at}: original {:?}, here {:?}", a.get(at), b.get(at)))
        }
        (a, b) => {
            let show = |r: Result<usize, u32>| r.map_or_else(|n| format!("refusal {n}"), |n| format!("{n} rows"));
            Err(format!(
                "original {}, here {}",
                show(a.as_ref().map(|v| v.len()).map_err(|n| *n)),
                show(b.as_ref().map(|v| v.len()).map_err(|n| *n))
            ))
        }
    }
}

/// A call as text: limits and both sheets.
pub fn show(call: &Call) -> String {
    format!(
        "  N = {}, D = {}, K = {}\n  root\n{}  library\n{}",
        call.max_nodes,
        call.max_depth,
        call.max_rows,
        rows::show(&call.root),
        rows::show(&call.library)
    )
}

/// Cases `from` to `from + count` of a seed. The number of differences; the smallest is printed.
pub fn run(count: u64, seed: u64, from: u64) -> u64 {
    if from == 0 {
        let sizes: Vec<String> = families::sizes().iter().map(|(name, size)| format!("{name} {size}")).collect();
        println!("families: {}; {} scenes", sizes.join(", "), families::total());
    }
    let mut tally = Tally::default();
    let mut differences = 0;
    let mut smallest: Option<(u64, Call, String)> = None;
    for number in from..from + count {
        let call = case(seed, number);
        if let Err(what) = check(&call, &mut tally) {
            differences += 1;
            if smallest.as_ref().is_none_or(|(_, c, _)| call.size() < c.size()) {
                smallest = Some((number, call, what));
            }
        }
    }
    print!("{tally}");
    if let Some((number, call, _)) = smallest {
        let call = shrink(&call, |c| check(c, &mut Tally::default()).is_err());
        let what = check(&call, &mut Tally::default()).unwrap_err();
        println!("smallest difference, from case {number} of seed {seed}: {what}\n{}", show(&call));
    }
    println!("{differences} differences");
    differences
}

/// The large scenes against the original. The number of differences.
pub fn large() -> u64 {
    let mut differences = 0;
    for (name, scene) in large::all() {
        let mut tally = Tally::default();
        let result = check(&scene.call(MOST_CHARGES), &mut tally);
        match tally.refused.iter().position(|n| *n > 0) {
            Some(refusal) => print!("{name}: refusal {refusal}"),
            None => print!("{name}: {} nodes, {} scopes", tally.most_nodes, tally.most_scopes),
        }
        let result = result.and(match tally.compared + tally.merged {
            0 => Err("not held against the original".into()),
            _ => Ok(()),
        });
        let how = if tally.merged > 0 { "as one document, as the original" } else { "as the original" };
        println!("; {}", result.as_ref().map_or_else(String::as_str, |()| how));
        differences += result.is_err() as u64;
    }
    println!("{differences} differences");
    differences
}
