//! Memory that the system does not give ends the command with a line and status 1, where std would abort it.

use std::alloc::{GlobalAlloc, Layout, System};
use std::cell::Cell;
use std::io::{self, Write};

struct Told;

#[global_allocator]
static ALLOCATOR: Told = Told;

thread_local! {
    static ASKING: Cell<bool> = const { Cell::new(false) };
}

/// Runs what takes a refusal of memory for an answer.
pub fn asking<T>(ask: impl FnOnce() -> T) -> T {
    ASKING.set(true);
    let answer = ask();
    ASKING.set(false);
    answer
}

/// The memory, or the end. What is said here takes no memory.
fn or_end(memory: *mut u8, bytes: usize) -> *mut u8 {
    if memory.is_null() && !ASKING.get() {
        let _ = writeln!(
            io::stderr(),
            "ralwinga: the system gives no {bytes} bytes of memory"
        );
        std::process::exit(1);
    }
    memory
}

// Sound: the system's allocator answers, and what it gives is handed on as it is.
unsafe impl GlobalAlloc for Told {
    unsafe fn alloc(&self, layout: Layout) -> *mut u8 {
        or_end(System.alloc(layout), layout.size())
    }

    unsafe fn alloc_zeroed(&self, layout: Layout) -> *mut u8 {
        or_end(System.alloc_zeroed(layout), layout.size())
    }

    unsafe fn realloc(&self, memory: *mut u8, layout: Layout, size: usize) -> *mut u8 {
        or_end(System.realloc(memory, layout, size), size)
    }

    unsafe fn dealloc(&self, memory: *mut u8, layout: Layout) {
        System.dealloc(memory, layout);
    }
}
