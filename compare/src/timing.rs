//! Times that are taken many times over.

use std::hint::black_box;
use std::time::{Duration, Instant};

/// The median of some values, and the ends of their middle half
pub struct Spread {
    pub low: f64,
    pub median: f64,
    pub high: f64,
}

impl Spread {
    pub fn of(values: impl IntoIterator<Item = f64>) -> Spread {
        let mut sorted: Vec<f64> = values.into_iter().collect();
        sorted.sort_by(f64::total_cmp);
        let at = |quarter| sorted[(sorted.len() - 1) * quarter / 4];
        Spread { low: at(1), median: at(2), high: at(3) }
    }

    /// The far end of the middle half, on either side of zero
    pub fn far(&self) -> f64 {
        self.low.abs().max(self.high.abs())
    }

    /// The median and, in brackets, the middle half, with so many digits behind the point
    pub fn text(&self, digits: usize) -> String {
        let Spread { low, median, high } = self;
        format!("{median:.digits$} ({low:.digits$} to {high:.digits$})")
    }
}

/// Places of the stack from which calls are made, some 32 bytes or more apart: a page of 4,096 bytes has no others.
const LEVELS: usize = 128;
/// From one turn to the next so many levels, all around, so that a few turns have places all over the page.
const STRIDE: usize = 37;

/// A call so many levels deeper on the stack
#[inline(never)]
fn deeper(levels: usize, call: &mut dyn FnMut()) {
    if levels == 0 {
        return call();
    }
    deeper(levels - 1, call);
    // What is done here keeps this level where it is.
    black_box(levels);
}

/// Of one of so many calls. Where an array of the call's lies across two pages, reading it takes longer, up to half of a step more; so each turn
/// makes its calls from another place of the stack, and the median of many turns does not hang on where the stack began.
pub fn seconds(call: &mut dyn FnMut(), times: usize, turn: usize) -> f64 {
    let mut took = 0.0;
    deeper(turn * STRIDE % LEVELS, &mut || {
        let start = Instant::now();
        (0..times).for_each(|_| call());
        took = start.elapsed().as_secs_f64();
    });
    took / times as f64
}

/// So many calls take at least so long.
pub fn enough(call: &mut dyn FnMut(), sample: Duration) -> usize {
    let mut times = 1;
    while seconds(call, times, 0) * (times as f64) < sample.as_secs_f64() {
        times *= 2;
    }
    times
}
