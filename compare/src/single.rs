//! Single steps, timed on two sides.
//!
//! A step's time is that of a file with some such steps less that of the file without them, over their number; reading the steps and writing
//! their lines is in it. The two files and a copy of the second are timed in turn, each of them by both sides, so that every call comes after one
//! of the other side, many times over; and where two kinds of steps are held against each other, the files of both. The medians of the turns'
//! differences in one round make a value; printed are the median of the rounds and, in brackets, their middle half. A ratio is that of the
//! medians, its bracket the middle half of the rounds' ratios.
//!
//! What can't be told from noise is printed as below the resolution: where the middle half of the rounds reaches zero, or the median is not
//! above twice what a file differs from its own copy, at the far end of the middle half. There is no ratio then.

use crate::steps::Near;
use crate::timing::{enough, seconds, Spread};
use checker::listing::listing;
use std::array;
use std::time::{Duration, Instant};

/// Rounds of a row
const ROUNDS: usize = 21;
const ROUND: Duration = Duration::from_millis(80);
/// The clock is read at most so often.
const SAMPLE: Duration = Duration::from_micros(50);

/// A call that is timed
pub type Call<'a> = Box<dyn FnMut() + 'a>;
/// What makes a side's call of a file
pub type Side = fn(&[u8]) -> Call<'_>;
/// What the calls of a turn take, for each kind of steps: the file without them by one side and by the other, then its copy, then the file with them
type Turn = Vec<f64>;
/// Calls of one kind of steps in a turn
const CALLS: usize = 6;

/// The turns of one round, each beginning with the next of the calls
fn round(calls: &mut [Call], times: usize) -> Vec<Turn> {
    let count = calls.len();
    let length = ROUND * (count / CALLS) as u32;
    let mut turns = Vec::new();
    let start = Instant::now();
    while start.elapsed() < length {
        let mut took = vec![0.0; count];
        for k in 0..count {
            let k = (k + turns.len()) % count;
            took[k] = seconds(&mut calls[k], times, turns.len());
        }
        turns.push(took);
    }
    turns
}

/// What a step takes on one side, in nanoseconds, by rounds and in all; and what the copy of the file without it takes more than that file.
pub struct Step {
    rounds: Vec<f64>,
    pub each: Spread,
    noise: Spread,
}

impl Step {
    /// From the call `first` on, which is that of the file without the steps
    fn of(rounds: &[Vec<Turn>], first: usize, count: usize) -> Step {
        let differences = |file: usize| -> Vec<f64> {
            let less = |took: &Turn| (took[2 * file + first] - took[first]) * 1e9 / count as f64;
            rounds.iter().map(|turns| Spread::of(turns.iter().map(less)).median).collect()
        };
        let (rounds, noise) = (differences(2), Spread::of(differences(1)));
        Step { each: Spread::of(rounds.clone()), noise, rounds }
    }

    /// What is less can't be told from noise.
    fn resolution(&self) -> f64 {
        let told = 2.0 * self.noise.far();
        if self.each.low <= 0.0 {
            told.max(self.each.far())
        } else {
            told
        }
    }

    fn is_told(&self) -> bool {
        self.each.median > self.resolution()
    }

    fn text(&self) -> String {
        if self.is_told() {
            self.each.text(0)
        } else {
            format!("below {:.0}", self.resolution())
        }
    }

    /// The ratio to another's, by rounds
    fn ratios<'a>(&'a self, other: &'a Step) -> impl Iterator<Item = f64> + 'a {
        self.rounds.iter().zip(&other.rounds).map(|(a, b)| a / b)
    }

    /// .. and in all
    pub fn over(&self, other: &Step) -> Option<Spread> {
        let median = self.each.median / other.each.median;
        (self.is_told() && other.is_told())
            .then(|| Spread { median, ..Spread::of(self.ratios(other)) })
    }
}

/// The ratio of one kind of steps over that of another, which were timed together
pub fn over([one, its]: &[Step; 2], [other, others]: &[Step; 2]) -> Option<Spread> {
    let median = one.over(its)?.median / other.over(others)?.median;
    let ratios = one.ratios(its).zip(other.ratios(others)).map(|(a, b)| a / b);
    Some(Spread { median, ..Spread::of(ratios) })
}

/// What a step of each kind takes on each side
pub fn timed<const N: usize>(nears: [&Near; N], sides: [Side; 2]) -> [[Step; 2]; N] {
    let copies = nears.map(|near| near.without.clone());
    let mut calls = Vec::new();
    for (near, copy) in nears.iter().zip(&copies) {
        for file in [&near.without, copy, &near.with] {
            assert!(!listing(file).contains("refused"), "{} is refused", near.name);
            calls.extend(sides.map(|side| side(file)));
        }
    }
    let times = enough(&mut calls[0], SAMPLE);
    let rounds: Vec<_> = (0..ROUNDS).map(|_| round(&mut calls, times)).collect();
    array::from_fn(|k| [0, 1].map(|side| Step::of(&rounds, CALLS * k + side, nears[k].count)))
}

fn print([name, count, one, other, ratio]: [&str; 5]) {
    println!("{name:<50} {count:>5} {one:>24} {other:>24} {ratio:>22}");
}

/// Prints what stands above the rows.
pub fn print_head([one, other]: [&str; 2]) {
    print(["single steps", "steps", one, other, "ratio"]);
}

/// Prints a row, its ratio with so many digits behind the point.
pub fn print_row(near: &Near, [one, other]: &[Step; 2], ratio: &Option<Spread>, digits: usize) {
    let ratio = ratio.as_ref().map_or("-".to_string(), |ratio| ratio.text(digits));
    print([&near.name, &near.count.to_string(), &one.text(), &other.text(), &ratio]);
}
