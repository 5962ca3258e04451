//! Ctrl-C, noted: what is done so far can still be printed. A second one ends the program.

use std::sync::atomic::{AtomicBool, Ordering};

extern "C" {
    fn signal(number: i32, handler: usize) -> usize;
}

const SIGINT: i32 = 2;
const DEFAULT: usize = 0;
const IGNORED: usize = 1;

static CAME: AtomicBool = AtomicBool::new(false);

extern "C" fn note(_: i32) {
    CAME.store(true, Ordering::Relaxed);
    // SAFETY: signal may be called in a handler.
    unsafe {
        signal(SIGINT, DEFAULT);
    }
}

/// Notes an interrupt from here on, unless the program was started so that it takes none.
pub fn watch() {
    // SAFETY: the handler stores a flag and sets the usual answer.
    unsafe {
        if signal(SIGINT, note as extern "C" fn(i32) as usize) == IGNORED {
            signal(SIGINT, IGNORED);
        }
    }
}

pub fn came() -> bool {
    CAME.load(Ordering::Relaxed)
}
