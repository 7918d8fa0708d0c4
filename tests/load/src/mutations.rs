//! Every file of `tests/cases` and of `examples/`, with one of its lines, tokens or bytes cut, doubled or moved.

use crate::held::{held, Fault};
use crate::{Progress, Replies};
use compare::random::{needed, Rng};
use compare::units::{parts, Unit};
use compare::{cases, lanes};
use product::by_reference;
use reference::Lent;
use std::fs;
use std::path::{Path, PathBuf};

/// What is done to one part of a file.
#[derive(Clone, Copy, Debug)]
enum Change {
    Cut,
    Double,
    /// With the part behind it.
    Exchange,
    /// To a place by chance.
    Move,
}

const CHANGES: [Change; 4] = [Change::Cut, Change::Double, Change::Exchange, Change::Move];
const UNITS: [Unit; 3] = [Unit::Line, Unit::Token, Unit::Byte];
/// Of a file of more parts so many are changed, spread over it: large files are much alike from end to end.
const MOST_PARTS: usize = 400;
const SPARE: usize = 100;

/// A file to change, with what it needs itself of the tables and the room.
struct Source {
    name: String,
    file: Vec<u8>,
    needed: Lent,
}

/// The part of a file that is changed.
struct Place {
    source: usize,
    unit: Unit,
    part: usize,
}

/// Every place in every file.
struct Corpus {
    sources: Vec<Source>,
    places: Vec<Place>,
}

impl Corpus {
    fn new() -> Self {
        let cases = cases::all().into_iter().map(|case| (case.name, case.input));
        let source = |(name, file): (String, Vec<u8>)| Source { needed: needed(&file, &by_reference), name, file };
        let sources: Vec<Source> = cases.chain(examples()).map(source).collect();
        let places = (0..sources.len()).flat_map(|source| {
            UNITS.into_iter().flat_map({
                let file = &sources[source].file;
                move |unit| {
                    let count = parts(file, unit).len();
                    spread(count).map(move |part| Place { source, unit, part })
                }
            })
        });
        Corpus { places: places.collect(), sources }
    }

    fn count(&self) -> u64 {
        (self.places.len() * CHANGES.len()) as u64
    }

    /// Holds the file of a number, which says the place and the change.
    fn hold(&self, replies: &mut Replies, number: u64) -> Result<(), Fault> {
        let Place { source, unit, part } = self.places[number as usize / CHANGES.len()];
        let change = CHANGES[number as usize % CHANGES.len()];
        let Source { name, file, needed } = &self.sources[source];
        let mut rng = Rng::new(number);
        let changed = changed(parts(file, unit), part, change, &mut rng);
        // One length in four is just what the file itself needs, so that what is added may not fit.
        let lent = needed.map(|needed| if rng.one_in(4) { needed } else { needed + SPARE });
        let name = || format!("mutation {number}: {name}, {unit:?} {part}, {change:?}");
        replies.add(&held(&changed, lent, name)?);
        Ok(())
    }
}

/// The files of `examples/`, in the order of their names.
fn examples() -> impl Iterator<Item = (String, Vec<u8>)> {
    let folder = Path::new(env!("CARGO_MANIFEST_DIR")).join("../../examples");
    let entries = fs::read_dir(folder).expect("examples/").map(|entry| entry.expect("a file of examples/").path());
    let schema = |path: &PathBuf| path.extension().is_some_and(|extension| extension == "exp");
    let mut paths: Vec<PathBuf> = entries.filter(schema).collect();
    paths.sort();
    paths.into_iter().map(|path| (path.display().to_string(), fs::read(&path).expect("a file of examples/")))
}

/// All of so many parts, or as many as are changed.
fn spread(count: usize) -> impl Iterator<Item = usize> {
    let chosen = count.min(MOST_PARTS);
    (0..chosen).map(move |i| i * count / chosen)
}

fn changed(mut parts: Vec<&[u8]>, part: usize, change: Change, rng: &mut Rng) -> Vec<u8> {
    match change {
        Change::Cut => drop(parts.remove(part)),
        Change::Double => parts.insert(part, parts[part]),
        Change::Exchange => {
            let behind = (part + 1).min(parts.len() - 1);
            parts.swap(part, behind);
        }
        Change::Move => {
            let moved = parts.remove(part);
            parts.insert(rng.below(parts.len() + 1), moved);
        }
    }
    parts.concat()
}

/// Holds each mutation whose number `every` divides.
pub fn run(every: u64, jobs: usize) -> Result<Replies, Fault> {
    let corpus = Corpus::new();
    let numbers = 0..corpus.count().div_ceil(every);
    let progress = Progress::new(numbers.clone());
    let work = |replies: &mut Replies, number: u64| {
        corpus.hold(replies, number * every)?;
        progress.step();
        Ok(())
    };
    lanes::run(numbers, jobs, work).map(Replies::sum)
}
