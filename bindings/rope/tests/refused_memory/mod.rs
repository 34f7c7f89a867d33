//! Memory that is refused when a test says so, and counted. This file defines the functions of the C library by which a program
//! takes memory, so that the library in C and Rust both call them, and not glibc's. They refuse and count only the memory that
//! the test's own thread takes.
use std::cell::{Cell, RefCell};
use std::ffi::c_void;
use std::ops::Range;
use std::ptr;

extern "C" {
    fn __libc_malloc(size: usize) -> *mut c_void;
    fn __libc_calloc(number: usize, size: usize) -> *mut c_void;
    fn __libc_realloc(block: *mut c_void, size: usize) -> *mut c_void;
    fn __libc_free(block: *mut c_void);
}

thread_local! {
    /// Which allocations are refused, by their numbers from 1.
    static REFUSED: RefCell<Range<usize>> = const { RefCell::new(0..0) };
    /// How many allocations were tried.
    static TRIED: Cell<usize> = const { Cell::new(0) };
    /// How many blocks were taken and not given back.
    static LIVING: Cell<isize> = const { Cell::new(0) };
}

/// Makes a call, and refuses the allocations in a range; returns its answer, and how many it tried.
pub fn refusing<T>(refused: Range<usize>, call: impl FnOnce() -> T) -> (T, usize) {
    TRIED.set(0);
    REFUSED.set(refused);
    let answer = call();
    REFUSED.set(0..0);
    (answer, TRIED.get())
}

/// How many blocks the thread has taken and not given back.
pub fn living() -> isize {
    LIVING.get()
}

fn is_refused() -> bool {
    TRIED.set(TRIED.get() + 1);
    REFUSED.with_borrow(|refused| refused.contains(&TRIED.get()))
}

/// Counts a block that is new.
fn counted(block: *mut c_void) -> *mut c_void {
    LIVING.set(LIVING.get() + isize::from(!block.is_null()));
    block
}

// SAFETY: these are the functions of the C library with those names, which hand on to it what they do not refuse. They take
// no memory by themselves: the numbers above stand in the thread's own storage from its beginning to its end.

#[no_mangle]
unsafe extern "C" fn malloc(size: usize) -> *mut c_void {
    if is_refused() {
        return ptr::null_mut();
    }
    counted(unsafe { __libc_malloc(size) })
}

#[no_mangle]
unsafe extern "C" fn calloc(number: usize, size: usize) -> *mut c_void {
    if is_refused() {
        return ptr::null_mut();
    }
    counted(unsafe { __libc_calloc(number, size) })
}

#[no_mangle]
unsafe extern "C" fn realloc(block: *mut c_void, size: usize) -> *mut c_void {
    if is_refused() {
        return ptr::null_mut();
    }
    let grown = unsafe { __libc_realloc(block, size) };
    if block.is_null() {
        counted(grown)
    } else {
        grown
    }
}

#[no_mangle]
unsafe extern "C" fn free(block: *mut c_void) {
    LIVING.set(LIVING.get() - isize::from(!block.is_null()));
    unsafe { __libc_free(block) }
}
