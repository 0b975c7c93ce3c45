//! What AFL++ runs: files from it, one after the other, each compared; a difference aborts.
//!
//! Linked with the library as compiled for coverage and with AFL++'s runtime.

use compare::beside::Buffer;
use std::hint::black_box;
use std::io::Read;

extern "C" {
    fn __afl_manual_init();
    fn __afl_persistent_loop(count: u32) -> i32;
    // The file that is to be run, in memory shared with AFL++; null without it.
    static mut __afl_fuzz_ptr: *const u8;
    static mut __afl_fuzz_len: *const u32;
}

/// That files come in shared memory
#[no_mangle]
pub static __afl_sharedmem_fuzzing: i32 = 1;
/// By these AFL++ knows a program that runs many files, and starts late.
static MARKS: [&str; 2] = ["##SIG_AFL_PERSISTENT##\0", "##SIG_AFL_DEFER_FORKSRV##\0"];

/// So many files are run before a process begins anew.
const FILES: u32 = 100_000;

fn file() -> Vec<u8> {
    unsafe {
        if !__afl_fuzz_ptr.is_null() {
            return std::slice::from_raw_parts(__afl_fuzz_ptr, *__afl_fuzz_len as usize).to_vec();
        }
    }
    let mut bytes = Vec::new();
    std::io::stdin().read_to_end(&mut bytes).expect("a file");
    bytes
}

fn main() {
    black_box((&MARKS, &__afl_sharedmem_fuzzing));
    let mut buffer = Buffer::default();
    unsafe { __afl_manual_init() };
    while unsafe { __afl_persistent_loop(FILES) } != 0 {
        if let Err(difference) = buffer.compare(&file()) {
            eprintln!("{difference}");
            std::process::abort();
        }
    }
}
