//! An allocator that refuses requests of a test. An allocator can't be written without `unsafe`.
#![allow(unsafe_code)]

use std::alloc::{GlobalAlloc, Layout, System};
use std::cell::Cell;
use std::ptr::null_mut;

/// Which requests are counted.
#[derive(Clone, Copy, PartialEq, Eq)]
pub enum Counted {
    /// Each request.
    All,
    /// Each request that doesn't fit into the memory that was given back last.
    New,
}

/// The requests of a thread while a call is tried.
struct Requests {
    counted: Cell<Option<Counted>>,
    granted: Cell<usize>,
    made: Cell<usize>,
    given_back: Cell<usize>,
}

thread_local! {
    static REQUESTS: Requests = const {
        Requests {
            counted: Cell::new(None),
            granted: Cell::new(0),
            made: Cell::new(0),
            given_back: Cell::new(0),
        }
    };
}

impl Requests {
    /// Counts a request for so many bytes. Returns false if it is to be refused.
    fn grants(&self, size: usize) -> bool {
        let Some(counted) = self.counted.get() else {
            return true;
        };
        if counted == Counted::New && size <= self.given_back.get() {
            self.given_back.set(self.given_back.get() - size);
            return true;
        }
        self.given_back.set(0);
        self.made.set(self.made.get() + 1);
        self.made.get() <= self.granted.get()
    }
}

struct Refusing;

// SAFETY: a request is refused by a null pointer, and each other is the system's.
unsafe impl GlobalAlloc for Refusing {
    unsafe fn alloc(&self, layout: Layout) -> *mut u8 {
        if REQUESTS.with(|requests| requests.grants(layout.size())) {
            // SAFETY: the caller keeps the conditions of `alloc`.
            unsafe { System.alloc(layout) }
        } else {
            null_mut()
        }
    }

    unsafe fn dealloc(&self, memory: *mut u8, layout: Layout) {
        REQUESTS.with(|requests| requests.given_back.set(layout.size()));
        // SAFETY: the memory is the system's, and of this layout.
        unsafe { System.dealloc(memory, layout) }
    }
}

#[global_allocator]
static ALLOCATOR: Refusing = Refusing;

/// Calls `call`, and refuses each counted request of this thread after the first `granted`.
/// Returns its result, and how many requests were counted.
pub fn granting<T>(counted: Counted, granted: usize, call: impl FnOnce() -> T) -> (T, usize) {
    REQUESTS.with(|requests| {
        requests.granted.set(granted);
        requests.made.set(0);
        requests.given_back.set(0);
        requests.counted.set(Some(counted));
        let result = call();
        requests.counted.set(None);
        (result, requests.made.get())
    })
}
