//! Whether standard input and standard output were open when the command was started. Before `main`, std opens `/dev/null` in the place of one that
//! was not, so that what is printed would be lost without a word.

use std::ffi::c_int;
use std::sync::atomic::{AtomicBool, Ordering};

const GET_FLAGS: c_int = 1;

extern "C" {
    fn fcntl(descriptor: c_int, command: c_int, ...) -> c_int;
}

static INPUT_CLOSED: AtomicBool = AtomicBool::new(false);
static OUTPUT_CLOSED: AtomicBool = AtomicBool::new(false);

extern "C" fn look() {
    // Sound: fcntl is asked for the flags of a descriptor, and fails where there is none.
    let closed = |descriptor| unsafe { fcntl(descriptor, GET_FLAGS) } == -1;
    INPUT_CLOSED.store(closed(0), Ordering::Relaxed);
    OUTPUT_CLOSED.store(closed(1), Ordering::Relaxed);
}

/// The system calls what stands here before std begins.
#[used]
#[link_section = ".init_array"]
static BEFORE_STD: extern "C" fn() = look;

pub fn input_is_closed() -> bool {
    INPUT_CLOSED.load(Ordering::Relaxed)
}

pub fn output_is_closed() -> bool {
    OUTPUT_CLOSED.load(Ordering::Relaxed)
}
