//! Whether standard input and output were open when the program began. Rust's runtime opens a closed one as /dev/null, which reads as an
//! empty text and takes every byte, so that nobody sees it in `main`: it is asked before, by a function that the loader calls first.

use std::ffi::c_int;
use std::io;
use std::sync::atomic::{AtomicBool, Ordering};

extern "C" {
    fn fcntl(descriptor: c_int, command: c_int, ...) -> c_int;
}

const F_GETFD: c_int = 1;

static CLOSED: [AtomicBool; 2] = [AtomicBool::new(false), AtomicBool::new(false)];

extern "C" fn look() {
    for (descriptor, closed) in (0..).zip(&CLOSED) {
        // SAFETY: the flags of a descriptor are read, and any number may be asked.
        closed.store(unsafe { fcntl(descriptor, F_GETFD) } == -1, Ordering::Relaxed);
    }
}

#[used]
#[link_section = ".init_array"]
static LOOK: extern "C" fn() = look;

/// An error where one of the two was closed.
pub fn are_open() -> io::Result<()> {
    for (name, closed) in ["input", "output"].into_iter().zip(&CLOSED) {
        if closed.load(Ordering::Relaxed) {
            return Err(io::Error::other(format!("standard {name} is closed")));
        }
    }
    Ok(())
}
