//! Standard output and standard error: what cannot be written is a status, never a panic.

use std::io::Write;
use std::sync::atomic::{AtomicBool, Ordering};

extern "C" {
    fn fcntl(fd: i32, command: i32, ...) -> i32;
}

const F_GETFD: i32 = 1;

static INPUT_CLOSED: AtomicBool = AtomicBool::new(false);
static OUTPUT_CLOSED: AtomicBool = AtomicBool::new(false);

/// Rust opens /dev/null in place of a closed standard file before `main`; whether one was closed is seen only earlier.
extern "C" fn look() {
    // SAFETY: asks for the flags of a descriptor, open or not.
    unsafe {
        INPUT_CLOSED.store(fcntl(0, F_GETFD) < 0, Ordering::Relaxed);
        OUTPUT_CLOSED.store(fcntl(1, F_GETFD) < 0, Ordering::Relaxed);
    }
}

#[used]
#[link_section = ".init_array"]
static LOOK: extern "C" fn() = look;

/// Whether the program was started without standard input.
pub fn input_closed() -> bool {
    INPUT_CLOSED.load(Ordering::Relaxed)
}

/// Whether the program was started without standard output.
pub fn output_closed() -> bool {
    OUTPUT_CLOSED.load(Ordering::Relaxed)
}

/// A line on standard error, if it can be written.
pub fn complain(line: &str) {
    let _ = writeln!(std::io::stderr(), "{line}");
}

/// What is written over the same line of a terminal.
pub fn progress(text: &str) {
    let _ = write!(std::io::stderr(), "\r\x1b[K{text}");
}
