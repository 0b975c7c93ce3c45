//! The proved judge of run files, and clauses from a lookup table, behind safe functions. `include/drf.h` declares the same four for C and
//! says what holds of each; `docs/INTEGRATION.md` says what is proved of them, and what of this crate is not.
//!
//! ```
//! let mut out = vec![0; drf::MOST_LISTING];
//! let told = drf::judge(b"DRF", &mut out)?;
//! assert_eq!(told.text, b"bad file 1 3\n");
//! assert_eq!((told.verdict, told.number, told.place), (drf::Verdict::BadFile, drf::refusal::ENDS_INSIDE, 3));
//! # Ok::<(), drf::Short>(())
//! ```

use std::fmt;

/// "From version 2 on a valid file may have up to 65,536 bytes": a longer one is refused as `TOO_LONG`, whatever is in it.
pub const MOST_FILE: usize = 65_536;

/// "Of any file the program reads one byte more and no further." A longer file is told of as its first bytes are.
pub const MOST_READ: usize = 65_537;

/// A buffer of so many bytes has room for every listing, and a shorter one is refused.
pub const MOST_LISTING: usize = 54_008;

/// A buffer of so many bytes has room for every listing with its final state, and a shorter one is refused.
pub const MOST_INSPECTION: usize = 136_558;

/// A buffer of so many bytes has room for every listing with its final state and the numbers that steps hand on, and a shorter one is refused.
pub const MOST_WITH_NUMBERS: usize = 536_558;

/// "Make the input clauses from up to 48 rows of key and result": a table with more is refused.
pub const MOST_ROWS: usize = 48;

/// The largest key and the largest result of a table; the least is as far below 0. It is the largest c of an atom.
pub const MOST_C: i32 = 1_000_000;

/// A buffer of so many bytes has room for the clauses of every table.
pub const MOST_TABLE: usize = 1_488;

/// The stack of a thread that calls, in bytes; what is lent is not in it. What a thread has where nothing is said is enough:
/// `std::thread` gives 2 MiB.
pub const STACK: usize = 180_224;

/// The refusal numbers. `docs/REFUSALS.md` says when each is given.
pub mod refusal {
    pub const ACCEPTED: u8 = 0;
    pub const ENDS_INSIDE: u8 = 1;
    pub const WRONG_MARK: u8 = 2;
    pub const ABOVE_LIMIT: u8 = 3;
    pub const OUT_OF_RANGE: u8 = 4;
    pub const OCCURS_NOWHERE: u8 = 5;
    pub const LACKS_BOUND: u8 = 6;
    pub const UNKNOWN_RULE: u8 = 7;
    pub const SURPLUS: u8 = 8;
    pub const WRONG_MOMENT: u8 = 9;
    pub const NO_SUCH: u8 = 10;
    pub const ALREADY_DEFINED: u8 = 11;
    pub const NOT_FALSE: u8 = 12;
    pub const NOT_POSSIBLE: u8 = 13;
    pub const NO_ENTRY: u8 = 14;
    pub const WRONG_LITERAL: u8 = 15;
    pub const NOT_ABOVE: u8 = 16;
    pub const KEPT_NOT_POSSIBLE: u8 = 17;
    pub const NO_ROOM: u8 = 18;
    pub const TOO_MANY_ROWS: u8 = 19;
    pub const NOT_IN_ORDER: u8 = 20;
    pub const BUFFER_SHORT: u8 = 21;
    pub const TOO_LONG: u8 = 22;
}

extern "C" {
    // A slice is handed over as its start and its length.
    fn drf_judge(
        file: *const u8,
        file_len: usize,
        out: *mut u8,
        out_len: usize,
        ends: *mut u64,
        ends_len: usize,
    ) -> u64;
    fn drf_inspect(
        file: *const u8,
        file_len: usize,
        out: *mut u8,
        out_len: usize,
        ends: *mut u64,
        ends_len: usize,
    ) -> u64;
    fn drf_inspect_numbers(
        file: *const u8,
        file_len: usize,
        out: *mut u8,
        out_len: usize,
        ends: *mut u64,
        ends_len: usize,
    ) -> u64;
    fn drf_table(
        keys: *const i32,
        keys_len: usize,
        results: *const i32,
        results_len: usize,
        approximate: u8,
        out: *mut u8,
        out_len: usize,
    ) -> u32;
}

/// An exported function that tells of a file
type Exported = unsafe extern "C" fn(*const u8, usize, *mut u8, usize, *mut u64, usize) -> u64;

/// The last line of a listing. It is shown in the listing's words.
#[derive(Clone, Copy, Debug, PartialEq, Eq, PartialOrd, Ord, Hash)]
pub enum Verdict {
    /// The conflict standing has no literals: the file's clauses have no model.
    Refuted,
    /// Every step was accepted.
    Open,
    /// A step was refused.
    Stopped,
    /// The file is refused, and none of its steps was tried.
    BadFile,
}

impl fmt::Display for Verdict {
    fn fmt(&self, to: &mut fmt::Formatter) -> fmt::Result {
        to.write_str(match self {
            Verdict::Refuted => "refuted",
            Verdict::Open => "open",
            Verdict::Stopped => "stopped",
            Verdict::BadFile => "bad file",
        })
    }
}

/// What is told of a file
#[derive(Clone, Copy, Debug, PartialEq, Eq)]
pub struct Told<'a> {
    /// At the front of the buffer lent; the bytes past it are as they were.
    pub text: &'a [u8],
    pub verdict: Verdict,
    /// Of the answer to the last step tried, also where the verdict is `Refuted`; of a bad file its refusal's. 0 where nothing was refused.
    pub number: u8,
    /// Of refusal 12 the literal, of a bad file the byte; else 0.
    pub place: u64,
}

/// The buffer is shorter than a text can be. It is as it was.
#[derive(Clone, Copy, Debug, PartialEq, Eq)]
pub struct Short;

impl fmt::Display for Short {
    fn fmt(&self, to: &mut fmt::Formatter) -> fmt::Result {
        to.write_str("the buffer is shorter than a text can be")
    }
}

impl std::error::Error for Short {}

/// The listing of a file, written to the front of the buffer. Short exactly below `MOST_LISTING` bytes.
pub fn judge<'a>(file: &[u8], out: &'a mut [u8]) -> Result<Told<'a>, Short> {
    told(drf_judge, file, out)
}

/// The listing and after it the final state, written to the front of the buffer. Short exactly below `MOST_INSPECTION` bytes.
pub fn inspect<'a>(file: &[u8], out: &'a mut [u8]) -> Result<Told<'a>, Short> {
    told(drf_inspect, file, out)
}

/// What `inspect` writes, with the numbers that accepted steps hand on. Beneath the line of each accepted Propagate, Decide, Conflict and Backtrack
/// stands one more: `numbers`, and for each constant, in their order, a space and its number. The numbers rise, and every atom that the step asks
/// about holds of them; `docs/FORMAT.md` says which they are. Short exactly below `MOST_WITH_NUMBERS` bytes.
pub fn inspect_numbers<'a>(file: &[u8], out: &'a mut [u8]) -> Result<Told<'a>, Short> {
    told(drf_inspect_numbers, file, out)
}

fn told<'a>(exported: Exported, file: &[u8], out: &'a mut [u8]) -> Result<Told<'a>, Short> {
    let mut ends = [0; 2];
    // SAFETY: each pointer is a slice's own, with its length beside it: never null, and aligned. The three slices are alive until the call
    // returns and do not overlap, since `out` and `ends` are borrowed mutably. The function reads within the first, writes within the
    // others, keeps no pointer and returns: that is proved of it. A thread with less than `STACK` bytes left is ended at the guard page
    // below its stack, which is no undefined behaviour: frames are entered page by page.
    let count = unsafe {
        exported(
            file.as_ptr(),
            file.len(),
            out.as_mut_ptr(),
            out.len(),
            ends.as_mut_ptr(),
            ends.len(),
        )
    };
    // Nothing that is written is empty, so 0 tells of a short buffer.
    if count == 0 {
        return Err(Short);
    }
    let text = &out[..count as usize];
    let [number, place] = ends;
    Ok(Told { text, verdict: verdict(text), number: number as u8, place })
}

/// The verdict of a text that was written. It is no part of what is proved, and rests on the form of the text, which is: `w ++ after`, with a
/// line in w for each step tried, or a bad file's only line (`Printed` in crates/listing/specs/Listing.antt). A step's line begins with its
/// number in decimal digits, and beneath it can stand a line that begins with `numbers` (`numbers_line` in
/// crates/inspection/specs/NumbersText.antt); `after` begins with the listing's last line, which is one of three words, for `inspect` and
/// `inspect_numbers` too (`inspected` in crates/judging/specs/Judging.antt). So the first line that begins with neither is that last line or a
/// bad file's, and the lines of the final state, which come after it, are not reached.
fn verdict(text: &[u8]) -> Verdict {
    let mut lines = text.split(|byte| *byte == b'\n');
    let of_step = |line: &[u8]| line.first().is_some_and(u8::is_ascii_digit);
    match lines.find(|line| !of_step(line) && !line.starts_with(b"numbers")) {
        Some(b"refuted") => Verdict::Refuted,
        Some(b"open") => Verdict::Open,
        Some(b"stopped") => Verdict::Stopped,
        _ => Verdict::BadFile,
    }
}

/// The kind of match by which a row of a table is found at x
#[derive(Clone, Copy, Debug, PartialEq, Eq, PartialOrd, Ord, Hash)]
pub enum Match {
    /// The row of the equal key
    Exact,
    /// The row of the largest key not above x
    Approximate,
}

/// A table is refused. The buffer is as it was.
#[derive(Clone, Copy, Debug, PartialEq, Eq)]
pub struct Refused {
    /// `TOO_MANY_ROWS`, `NOT_IN_ORDER` or `BUFFER_SHORT` of `refusal`
    pub number: u8,
    /// 0: no row is named.
    pub place: u8,
}

/// The number, and the words that it has in "Clauses from a lookup table" of "Further change requests"
impl fmt::Display for Refused {
    fn fmt(&self, to: &mut fmt::Formatter) -> fmt::Result {
        let words = match self.number {
            refusal::TOO_MANY_ROWS => "more than 48 rows",
            refusal::NOT_IN_ORDER => {
                "keys not strictly rising, or a key or result outside ±1,000,000"
            }
            refusal::BUFFER_SHORT => "buffer too short",
            other => return write!(to, "refused {other}"),
        };
        write!(to, "refused {}: {words}", self.number)
    }
}

impl std::error::Error for Refused {}

/// The input clauses of a lookup table, written to the front of the buffer as a run file has them, without their number: one for each key
/// with the result at its place. Gets(x, y), of which they say what the table returns, is predicate 1 and has two arguments. A key without a
/// result is refused as `NOT_IN_ORDER`; results past the keys are not looked at.
///
/// ```
/// let mut out = [0; drf::MOST_TABLE];
/// let clauses = drf::table(&[-1], &[3], drf::Match::Approximate, &mut out)?;
/// let atoms = [0, 1, 1, 0, 0, 0, 0, 2, 253, 255, 255, 255, 2, 0, 3, 0, 0, 0]; // 0 - x <= 1, 0 - y <= -3, y - 0 <= 3
/// assert_eq!(clauses, [&[2, 3, 1][..], &atoms, &[1, 1, 1, 2]].concat());
///
/// let refused = drf::table(&[4120, 4100], &[1, 2], drf::Match::Exact, &mut out).unwrap_err();
/// assert_eq!((refused.number, refused.place), (drf::refusal::NOT_IN_ORDER, 0));
/// # Ok::<(), drf::Refused>(())
/// ```
pub fn table<'a>(
    keys: &[i32],
    results: &[i32],
    kind: Match,
    out: &'a mut [u8],
) -> Result<&'a [u8], Refused> {
    // SAFETY: as in `told`, of these three slices: `keys` and `results` are read, and may be the same; `out` is borrowed mutably.
    let answer = unsafe {
        drf_table(
            keys.as_ptr(),
            keys.len(),
            results.as_ptr(),
            results.len(),
            (kind == Match::Approximate).into(),
            out.as_mut_ptr(),
            out.len(),
        )
    };
    // No table has more bytes, and the least refusal is 19 times 256.
    if answer as usize > MOST_TABLE {
        let [place, number, ..] = answer.to_le_bytes();
        return Err(Refused { number, place });
    }
    Ok(&out[..answer as usize])
}
