//! Times the public call against the reference on generated files, side by side in one run, in nanoseconds for each byte.
//!
//! Both are lent tables of one row more than needed and a room of one byte more, which are filled anew before each run, outside of its
//! time: the proved call clears what it does not fill, and the reference allocates its rows and its room. Arguments are the first seed,
//! and `strings` for files full of strings instead of files without.

use compare::random::{needed, Strings, LARGEST};
use compare::timing::{files_near, timed};
use product::{by_reference, check, Lengths, Tables};
use std::hint::black_box;

const RUNS: usize = 200;
const FILES: usize = 12;

/// The best times of both on a file, for which they leave the same.
fn times(file: &[u8]) -> [f64; 2] {
    let lengths = needed(file, &by_reference).map(|length| length + 1);
    assert_eq!(check(file, lengths), by_reference(file, lengths));
    let lent = Tables::new(Lengths::even(lengths), 1);
    let mut best = [f64::INFINITY; 2];
    for _ in 0..RUNS {
        let mut tables = lent.clone();
        let proved = timed(&mut || tables.check(black_box(file)));
        let reference = timed(&mut || by_reference(black_box(file), lengths));
        best = [best[0].min(proved), best[1].min(reference)];
    }
    best
}

/// The first seed and the share of strings that the arguments ask for.
fn arguments() -> (u64, Strings) {
    let mut asked = (0, Strings::None);
    for argument in std::env::args().skip(1) {
        match argument.as_str() {
            "strings" => asked.1 = Strings::Most,
            seed => asked.0 = seed.parse().expect("a seed, or `strings`"),
        }
    }
    asked
}

fn main() {
    let (first_seed, strings) = arguments();
    println!("   bytes    proved  reference   ratio");
    for size in [1_024, 16_384, LARGEST] {
        let mut ratios = Vec::new();
        for file in files_near(strings, size, first_seed).take(FILES) {
            let [proved, reference] = times(&file).map(|time| time / file.len() as f64);
            println!("{:8}{proved:10.3}{reference:11.3}{:8.2}", file.len(), proved / reference);
            ratios.push(proved / reference);
        }
        ratios.sort_by(f64::total_cmp);
        println!("near {size}: {:.2} to {:.2}, in the middle {:.2}", ratios[0], ratios[FILES - 1], ratios[FILES / 2]);
    }
}
