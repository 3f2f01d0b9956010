//! Memory, and the end of a run for which there is none: a line and exit status 2, where Rust's library would abort.
use std::alloc::{GlobalAlloc, Layout, System};
use std::ffi::c_int;

const STANDARD_ERROR: c_int = 2;
const FAILED: c_int = 2;
const LINE: &[u8] = b"carolsedge: there is not enough memory\n";

extern "C" {
    fn write(file: c_int, bytes: *const u8, length: usize) -> isize;
    fn _exit(status: c_int) -> !;
}

/// The system's memory, as long as it has any.
pub struct Memory;

// SAFETY: all calls are the system's, with what they were called with; one that answers nothing does not come back.
unsafe impl GlobalAlloc for Memory {
    unsafe fn alloc(&self, layout: Layout) -> *mut u8 {
        given(unsafe { System.alloc(layout) })
    }

    unsafe fn alloc_zeroed(&self, layout: Layout) -> *mut u8 {
        given(unsafe { System.alloc_zeroed(layout) })
    }

    unsafe fn realloc(&self, old: *mut u8, layout: Layout, size: usize) -> *mut u8 {
        given(unsafe { System.realloc(old, layout, size) })
    }

    unsafe fn dealloc(&self, old: *mut u8, layout: Layout) {
        unsafe { System.dealloc(old, layout) }
    }
}

fn given(memory: *mut u8) -> *mut u8 {
    if memory.is_null() {
        // SAFETY: pointer and length are a slice's. Both calls need no memory, and the second does not come back.
        unsafe {
            write(STANDARD_ERROR, LINE.as_ptr(), LINE.len());
            _exit(FAILED);
        }
    }
    memory
}
