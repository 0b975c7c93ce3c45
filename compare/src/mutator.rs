//! What AFL++ loads to change files by: [`compare::mutate`].

use checker::random::Random;
use compare::mutate::mutated;
use std::ffi::c_void;
use std::ptr;

struct Mutator {
    random: Random,
    /// The last file made, which AFL++ reads before it asks for the next.
    made: Vec<u8>,
}

#[no_mangle]
pub extern "C" fn afl_custom_init(_afl: *mut c_void, seed: u32) -> *mut c_void {
    let random = Random::new(seed.into());
    Box::into_raw(Box::new(Mutator { random, made: Vec::new() })).cast()
}

/// # Safety
/// As AFL++ calls it
#[no_mangle]
pub unsafe extern "C" fn afl_custom_deinit(mutator: *mut c_void) {
    drop(Box::from_raw(mutator.cast::<Mutator>()));
}

/// The bytes at a place, none where there is none
unsafe fn bytes<'a>(start: *const u8, length: usize) -> &'a [u8] {
    if start.is_null() {
        &[]
    } else {
        std::slice::from_raw_parts(start, length)
    }
}

/// # Safety
/// As AFL++ calls it
#[no_mangle]
pub unsafe extern "C" fn afl_custom_fuzz(
    mutator: *mut c_void,
    file: *const u8,
    file_len: usize,
    out: *mut *const u8,
    other: *const u8,
    other_len: usize,
    most: usize,
) -> usize {
    let Mutator { random, made } = &mut *mutator.cast::<Mutator>();
    *made = mutated(random, bytes(file, file_len), bytes(other, other_len));
    // No file is to be empty here.
    if made.is_empty() {
        made.push(b'D');
    }
    made.truncate(most);
    ptr::write(out, made.as_ptr());
    made.len()
}
