//! Time of a call whose library's files declare externs (document 02, wish 12), beside that of the check of its library. The
//! original follows none of them.

use std::hint::black_box;

use crate::bench::{factor, just_enough, several, show, thousands, Slices, Times};
use crate::linked::{self, LINKED};
use crate::memory::now;
use crate::scenes::large::{self, Named};
use crate::scenes::Scene;

/// The form of a library, for the check of a sheet.
const FORM_LIBRARY: u32 = 1;
/// Goal: times the half.
const MOST_GROWTH: f64 = 2.2;

type Files = (&'static str, fn() -> Scene, fn() -> Scene);

const FILES: [Files; 4] = [
    (
        "64 files of 16,000 externs without urls",
        || large::sources(16_000, Named::Nothing),
        || large::sources(8_000, Named::Nothing),
    ),
    (
        "64 files of 8,000 externs with a url",
        || large::sources(8_000, Named::Each),
        || large::sources(4_000, Named::Each),
    ),
    (
        "a chain of 64 files of 8,000 externs with a url",
        || large::sources(8_000, Named::Next),
        || large::sources(4_000, Named::Next),
    ),
    ("20,000 externs of a file by fragment", || large::relayed(20_000), || large::relayed(10_000)),
];

/// The table, of the scenes whose name has this part. The number of wrong answers.
pub fn run(part: &str) -> u64 {
    let chosen: Vec<&Files> = FILES.iter().filter(|f| LINKED && f.0.contains(part)).collect();
    if chosen.is_empty() {
        return 0;
    }
    let mut wrong = 0;
    println!("| files that name other files | rows of the library | charges | library | check of the library | library / check | half the externs | full / half |");
    println!("|--|--:|--:|--:|--:|--:|--:|--:|");
    for (name, full, half) in chosen {
        eprintln!("{name}");
        let ((call, e), (half, _)) = (just_enough(&full()), just_enough(&half()));
        let (mut slices, mut half_slices) = (Slices::new(call.lent), Slices::new(half.lent));
        let (mut fulls, mut halves, mut checks) = (Times::default(), Times::default(), Times::default());
        let mut answer = [0; 2];
        several(5, 2.0, || {
            halves.push(half_slices.time(&half));
            let start = now();
            black_box(linked::check(&call.library, FORM_LIBRARY, &mut answer));
            checks.push(now() - start);
            let time = slices.time(&call);
            fulls.push(time);
            time
        });
        wrong += (answer != [1, 0] || !slices.right(&e)) as u64;
        let (times, growth) = (fulls.median() / checks.median(), fulls.median() / halves.median());
        println!(
            "| {name} | {} | {} | {} | {} | {} | {} | {} |",
            thousands(call.library.len() as u64 / 8),
            thousands(e.charges as u64),
            show(fulls.median()),
            show(checks.median()),
            factor(times, true),
            show(halves.median()),
            factor(growth, growth <= MOST_GROWTH)
        );
    }
    println!();
    wrong
}
