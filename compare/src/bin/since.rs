//! Times the exported functions of this tree beside those of an earlier commit on the same inputs: the sets of bench/constraint, and the files and
//! single steps of bench/files. `bench/since` links both into this program, with `before_` and `after_` put before their names.
//!
//! The two sides are timed in turn, many times over, and each turn begins with the other of them. Printed are the medians of the turns: what each
//! side takes, and the ratio, with the middle half of the turns' ratios in brackets. A single step is what a file with such steps takes more than
//! the file without them; how that is timed, and what is marked as noise, `compare::single` says. Rows together are the sums of what each side
//! takes, and the mean of the ratios; a step without a ratio is left out. Before a row is timed it is seen that both sides answer the same; so of
//! a version that the earlier commit does not know there are no rows, and no files of more bytes than every commit reads.

#[path = "../../../bench/sets.rs"]
mod sets;

use checker::file::{write, RunFile, VERSIONS};
use checker::generate::generate_version;
use checker::limits;
use checker::listing::run;
use compare::single::{print_head, print_row, timed, Call, Side};
use compare::steps;
use compare::steps::Near;
use compare::timing::{enough, seconds, Spread};
use drf::MOST_LISTING;
use sets::{Row, Set, CONSTANTS};
use std::hint::black_box;
use std::time::{Duration, Instant};

const FILES: u64 = 2_000;
/// A row has at least so many turns, and takes at least so long.
const TURNS: usize = 101;
const EACH: Duration = Duration::from_millis(500);
/// The clock is read at most so often.
const SAMPLE: Duration = Duration::from_micros(200);

// ---- both sides. A slice is handed over as its start and its length.

macro_rules! tests {
    ($library:literal $name:ident) => {
        #[link(name = $library, kind = "static")]
        extern "C" {
            fn $name(
                constants: u8,
                count: u8,
                places: *const u8,
                places_len: usize,
                bounds: *const i32,
                bounds_len: usize,
            ) -> u32;
        }
    };
}

macro_rules! tells {
    ($library:literal $name:ident) => {
        #[link(name = $library, kind = "static")]
        extern "C" {
            fn $name(
                file: *const u8,
                file_len: usize,
                out: *mut u8,
                out_len: usize,
                ends: *mut u64,
                ends_len: usize,
            ) -> u64;
        }
    };
}

tests!("before_constraint_export" before_drf_possible);
tests!("after_constraint_export" after_drf_possible);
tells!("before_drf" before_drf_judge);
tells!("after_drf" after_drf_judge);

extern "C" {
    fn after_drf_numbers(
        constants: u8,
        count: u8,
        places: *const u8,
        places_len: usize,
        bounds: *const i32,
        bounds_len: usize,
        numbers: *mut i32,
        numbers_len: usize,
    ) -> u32;
}

type Tests = unsafe extern "C" fn(u8, u8, *const u8, usize, *const i32, usize) -> u32;
type Tells = unsafe extern "C" fn(*const u8, usize, *mut u8, usize, *mut u64, usize) -> u64;

/// What the test answers of a set
fn answer(tests: Tests, Set { places, bounds }: &Set) -> u32 {
    let (p, c) = (places.as_ptr(), bounds.as_ptr());
    // SAFETY: each pointer is a slice's own, with its length beside it.
    unsafe { tests(CONSTANTS as u8, bounds.len() as u8, p, places.len(), c, bounds.len()) }
}

/// The same, with the numbers behind a yes
fn numbered(Set { places, bounds }: &Set) -> u32 {
    let mut numbers = [0; CONSTANTS];
    let (p, c, to) = (places.as_ptr(), bounds.as_ptr(), numbers.as_mut_ptr());
    let (count, room) = (bounds.len(), numbers.len());
    // SAFETY: as above
    unsafe { after_drf_numbers(CONSTANTS as u8, count as u8, p, places.len(), c, count, to, room) }
}

/// What is told of a file, at the front of the buffer
fn told<'a>(tells: Tells, file: &[u8], out: &'a mut [u8]) -> &'a [u8] {
    let mut ends = [0; 2];
    let (to, room) = (out.as_mut_ptr(), out.len());
    // SAFETY: as above
    let count = unsafe { tells(file.as_ptr(), file.len(), to, room, ends.as_mut_ptr(), 2) };
    &out[..count as usize]
}

// ---- rows

/// What each side takes for an input, in nanoseconds, and the ratio
struct Took {
    before: f64,
    after: f64,
    ratio: f64,
}

/// Prints a row: all inputs one after the other, by one side and by the other.
fn row<T, A>(
    name: &str,
    inputs: &[T],
    mut before: impl FnMut(&T) -> A,
    mut after: impl FnMut(&T) -> A,
) -> Took {
    let sides: [&mut dyn FnMut(); 2] = [
        &mut || inputs.iter().for_each(|input| _ = black_box(before(black_box(input)))),
        &mut || inputs.iter().for_each(|input| _ = black_box(after(black_box(input)))),
    ];
    let times = enough(sides[0], SAMPLE);
    let mut took = [Vec::new(), Vec::new()];
    let start = Instant::now();
    while took[0].len() < TURNS || start.elapsed() < EACH {
        let turn = took[0].len();
        for side in [turn % 2, 1 - turn % 2] {
            took[side].push(seconds(sides[side], times, turn) * 1e9 / inputs.len() as f64);
        }
    }
    let Spread { low, median: ratio, high } =
        Spread::of(took[1].iter().zip(&took[0]).map(|(after, before)| after / before));
    let [before, after] = took.map(|values| Spread::of(values).median);
    println!("{name:<50} {before:>10.0} {after:>10.0} {ratio:>8.3} ({low:.3} to {high:.3})");
    Took { before, after, ratio }
}

/// Prints what some rows come to together.
fn together(name: &str, rows: &[Took]) {
    let sum = |of: fn(&Took) -> f64| rows.iter().map(of).sum::<f64>();
    let (before, after) = (sum(|took| took.before), sum(|took| took.after));
    let (all, mean) = (after / before, sum(|took| took.ratio) / rows.len() as f64);
    println!(
        "{name}: {} rows, {before:.0} ns before, {after:.0} ns after, together {all:.3}, mean of the ratios {mean:.3}\n",
        rows.len()
    );
}

/// The test on each row of sets
fn test_rows(after: impl Fn(&Set) -> u32) -> Vec<Took> {
    let mut took = Vec::new();
    for Row { possible, count, sets } in sets::rows() {
        let before = |set: &Set| answer(before_drf_possible, set);
        assert!(sets.iter().all(|set| before(set) == possible.into() && after(set) == before(set)));
        let name = format!("{}, {count} atoms", if possible { "possible" } else { "impossible" });
        took.push(row(&name, &sets, before, &after));
    }
    took
}

/// Sees that both sides tell the same of some files.
fn see_same<'a>(name: &str, files: impl IntoIterator<Item = &'a Vec<u8>>) {
    let (mut one, mut other) = (vec![0; MOST_LISTING], vec![0; MOST_LISTING]);
    for file in files {
        let before = told(before_drf_judge, file, &mut one);
        assert!(before == told(after_drf_judge, file, &mut other), "{name}");
    }
}

/// Judging of some files, one after the other
fn judge_row(name: &str, files: &[Vec<u8>]) -> Took {
    see_same(name, files);
    let (mut one, mut other) = (vec![0; MOST_LISTING], vec![0; MOST_LISTING]);
    let before = |file: &Vec<u8>| told(before_drf_judge, file, &mut one).len();
    let after = |file: &Vec<u8>| told(after_drf_judge, file, &mut other).len();
    row(name, files, before, after)
}

/// Judging of one file, again and again
fn judges(tells: Tells, file: &[u8]) -> Call<'_> {
    let mut out = vec![0; MOST_LISTING];
    Box::new(move || _ = black_box(told(tells, black_box(file), &mut out).len()))
}

/// A single step, where there is a ratio
fn step_row(near: &Near) -> Option<Took> {
    see_same(&near.name, [&near.without, &near.with]);
    let sides: [Side; 2] =
        [|file| judges(before_drf_judge, file), |file| judges(after_drf_judge, file)];
    let [steps] = timed([near], sides);
    let ratio = steps[1].over(&steps[0]);
    print_row(near, &steps, &ratio, 3);
    let [before, after] = steps.map(|step| step.each.median);
    ratio.map(|ratio| Took { before, after, ratio: ratio.median })
}

/// Whether the earlier commit reads files of a version
fn before_knows(version: u16) -> bool {
    let (arities, clauses, steps) = (Vec::new(), Vec::new(), Vec::new());
    let empty = write(&RunFile { version, constants: 0, arities, clauses, steps }).bytes;
    told(before_drf_judge, &empty, &mut vec![0; MOST_LISTING]) == b"open\n"
}

/// Whether it reads all of a file, and of no version that it does not know, as damage can make it
fn before_reads(file: &[u8]) -> bool {
    let is_of = |version: u16| file.get(3..5) == Some(&version.to_le_bytes()[..]);
    file.len() < limits::FILE_BYTES
        && VERSIONS.into_iter().all(|version| !is_of(version) || before_knows(version))
}

fn judge_rows() -> Vec<Took> {
    let mut took = Vec::new();
    for version in VERSIONS.into_iter().filter(|&version| before_knows(version)) {
        let files = (1..=FILES).map(|seed| generate_version(version, seed));
        let (good, bad): (Vec<_>, Vec<_>) =
            files.filter(|file| before_reads(file)).partition(|file| run(file).is_ok());
        took.push(judge_row(&format!("files with steps of version {version}"), &good));
        took.push(judge_row(&format!("bad files of version {version}"), &bad));
    }
    took
}

/// Prints the single steps, and what they come to together: those of every rule but Decide, and Decide's.
fn step_rows() {
    print_head(["before ns", "after ns"]);
    let (mut decides, mut others) = (Vec::new(), Vec::new());
    for near in steps::all().iter().filter(|near| before_knows(near.version)) {
        let rows = if near.name.starts_with("decide") { &mut decides } else { &mut others };
        rows.extend(step_row(near));
    }
    together("single steps with a ratio, of every rule but Decide", &others);
    together("single steps with a ratio, of Decide", &decides);
}

/// Prints some rows, and what they come to together.
fn part(name: &str, rows: impl FnOnce() -> Vec<Took>) -> Vec<Took> {
    println!("{name:<50} {:>10} {:>10} {:>8}", "before ns", "after ns", "ratio");
    let rows = rows();
    together(name, &rows);
    rows
}

fn main() {
    part("constraint test, after with numbers told", || test_rows(numbered));
    let mut all = part("constraint test", || test_rows(|set| answer(after_drf_possible, set)));
    all.extend(part("files judged", judge_rows));
    together("all rows of the last two parts", &all);
    step_rows();
}
