//! Times the proved tool beside the independent checker on the same files, in one run: whole files, and single steps of every rule on trails
//! of 10, 80 and 160 entries. How a step is timed, and what is marked as noise, `compare::single` says.

use checker::file::VERSIONS;
use checker::generate::generate_version;
use checker::listing::{listing, run};
use compare::single::{over, print_head, print_row, timed, Call, Step};
use compare::steps;
use compare::steps::Near;
use compare::timing::{seconds, Spread};
use drf::{judge, MOST_LISTING};
use std::hint::black_box;

const FILES: u64 = 2_000;
/// Rounds over all whole files, and the calls of which a round takes the median
const PASSES: usize = 9;
const CALLS: usize = 5;

/// Ours on a file
fn ours(file: &[u8]) -> Call<'_> {
    let mut out = vec![0; MOST_LISTING];
    assert_eq!(judge(file, &mut out).expect("room").text, listing(file).as_bytes());
    Box::new(move || {
        let _ = black_box(judge(black_box(file), &mut out));
    })
}

/// The checker on a file
fn theirs(file: &[u8]) -> Call<'_> {
    Box::new(move || {
        black_box(listing(black_box(file)));
    })
}

fn print_step(near: &Near, steps: &[Step; 2]) {
    print_row(near, steps, &steps[0].over(&steps[1]), 2);
}

fn single_step(near: &Near) {
    let [steps] = timed([near], [ours, theirs]);
    print_step(near, &steps);
}

/// A decision and a propagation on the same trail; and that trail's name with the decision's ratio over the propagation's
fn pair([decide, propagate]: &[Near; 2]) -> (String, Option<Spread>) {
    let [one, other] = timed([decide, propagate], [ours, theirs]);
    print_step(decide, &one);
    print_step(propagate, &other);
    let trail = decide.name.split_once(", ").map_or("", |(_, trail)| trail);
    (trail.to_string(), over(&one, &other))
}

/// What the two sides take on a file, by turns
fn by_turns(ours: &mut dyn FnMut(), theirs: &mut dyn FnMut()) -> (f64, f64) {
    let took: Vec<_> =
        (0..CALLS).map(|turn| (seconds(ours, 1, turn), seconds(theirs, 1, turn))).collect();
    let middle = |side: fn(&(f64, f64)) -> f64| Spread::of(took.iter().map(side)).median;
    (middle(|took| took.0), middle(|took| took.1))
}

fn whole_files(name: &str, files: &[Vec<u8>]) {
    // For each pass the times of all files, ours and the checker's
    let mut calls: Vec<_> = files.iter().map(|file| (ours(file), theirs(file))).collect();
    let passes: Vec<Vec<(f64, f64)>> =
        (0..PASSES).map(|_| calls.iter_mut().map(|(a, b)| by_turns(a, b)).collect()).collect();
    let together = passes.iter().map(|pass| {
        pass.iter().map(|took| took.0).sum::<f64>() / pass.iter().map(|took| took.1).sum::<f64>()
    });
    let together = Spread::of(together).text(2);
    let of_file = |k: usize| {
        let middle = |side: fn(&(f64, f64)) -> f64| {
            Spread::of(passes.iter().map(|pass| side(&pass[k]))).median
        };
        middle(|took| took.0) / middle(|took| took.1)
    };
    let mut ratios: Vec<f64> = (0..files.len()).map(of_file).collect();
    ratios.sort_by(f64::total_cmp);
    let at = |percent: usize| ratios[(ratios.len() - 1) * percent / 100];
    println!(
        "{:>5} {name}: all together {together}, median {:.2}, 95 of 100 below {:.2}, largest {:.2}, {} above 10",
        files.len(),
        at(50),
        at(95),
        at(100),
        ratios.iter().filter(|&&ratio| ratio > 10.0).count()
    );
}

fn main() {
    println!("whole files, ratios");
    for version in VERSIONS {
        let (good, bad): (Vec<_>, Vec<_>) = (1..=FILES)
            .map(|seed| generate_version(version, seed))
            .partition(|file| run(file).is_ok());
        whole_files(&format!("files with steps of version {version}"), &good);
        whole_files(&format!("bad files of version {version}"), &bad);
    }
    print_head(["ours ns", "checker ns"]);
    let pairs: Vec<_> = steps::pairs().iter().map(pair).collect();
    steps::others().iter().for_each(single_step);
    println!("Decide's ratio over Propagate's, both timed in turn");
    for (trail, ratio) in pairs {
        println!("{trail:<50} {}", ratio.map_or("-".to_string(), |ratio| ratio.text(3)));
    }
}
