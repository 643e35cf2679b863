//! The signal for a file that would grow over its size limit. All `unsafe` of this crate stands here.

use std::ffi::c_int;

/// The number of the signal, on Linux.
const SIGXFSZ: c_int = 25;

/// What stands for "ignore" where a handler is expected.
const SIG_IGN: usize = 1;

extern "C" {
    fn signal(number: c_int, handler: usize) -> usize;
}

/// Has a write over the file size limit fail instead of ending the program, so that what was written
/// of a report can be cut off again.
pub fn ignore_file_size_signal() {
    // SAFETY: `signal` is the C library's; the arguments are a valid signal and SIG_IGN, so that no
    // code is registered. It is called before any other thread runs.
    unsafe {
        signal(SIGXFSZ, SIG_IGN);
    }
}
