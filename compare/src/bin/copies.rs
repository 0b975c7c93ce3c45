//! Counts what the proved tool copies in a step: all calls of the C library's `memcpy` and `memmove`, which this program defines itself.

use compare::steps;
use drf::{judge, MOST_LISTING};
use std::sync::atomic::{AtomicUsize, Ordering::Relaxed};

static COPIES: AtomicUsize = AtomicUsize::new(0);
static BYTES: AtomicUsize = AtomicUsize::new(0);
static TABLES: AtomicUsize = AtomicUsize::new(0);

/// A copy that counts starts here; smaller ones are records that stay in registers' reach.
const LARGE: usize = 1_000;
/// The bytes of the table of 96 clauses
const TABLE: usize = 22_656;

fn note(count: usize) {
    if count >= LARGE {
        COPIES.fetch_add(1, Relaxed);
        BYTES.fetch_add(count, Relaxed);
    }
    if count >= TABLE {
        TABLES.fetch_add(1, Relaxed);
    }
}

/// Byte by byte, by volatile writes, so that the compiler does not put a call of `memmove` here.
unsafe fn moved(to: *mut u8, from: *const u8, count: usize) -> *mut u8 {
    note(count);
    if (to as usize) < from as usize {
        (0..count).for_each(|k| to.add(k).write_volatile(*from.add(k)));
    } else {
        (0..count).rev().for_each(|k| to.add(k).write_volatile(*from.add(k)));
    }
    to
}

/// # Safety
/// As of the C library's function
#[no_mangle]
pub unsafe extern "C" fn memcpy(to: *mut u8, from: *const u8, count: usize) -> *mut u8 {
    moved(to, from, count)
}

/// # Safety
/// As of the C library's function
#[no_mangle]
pub unsafe extern "C" fn memmove(to: *mut u8, from: *const u8, count: usize) -> *mut u8 {
    moved(to, from, count)
}

/// Copies, bytes and tables copied while a file is judged
fn counted(file: &[u8], out: &mut [u8]) -> [usize; 3] {
    let all = [&COPIES, &BYTES, &TABLES];
    let before = all.map(|count| count.load(Relaxed));
    judge(file, out).expect("room");
    let after = all.map(|count| count.load(Relaxed));
    [0, 1, 2].map(|k| after[k] - before[k])
}

fn main() {
    let mut out = vec![0; MOST_LISTING];
    println!("{:<50} copies   bytes  tables", "in a step");
    for near in steps::all() {
        let (less, more) = (counted(&near.without, &mut out), counted(&near.with, &mut out));
        let [copies, bytes, tables] =
            [0, 1, 2].map(|k| (more[k] as f64 - less[k] as f64) / near.count as f64);
        println!("{:<50} {copies:>6.1} {bytes:>7.0} {tables:>7.1}", near.name);
    }
}
