//! Panics that print nothing, of programs with a planted fault.

use std::cell::Cell;
use std::panic::{self, AssertUnwindSafe};

thread_local! {
    /// Whether a panic of this thread prints nothing.
    static QUIET: Cell<bool> = const { Cell::new(false) };
}

/// Panics of what is run quietly print nothing.
pub fn set_panic_hook() {
    let hook = panic::take_hook();
    panic::set_hook(Box::new(move |panic| {
        if !QUIET.get() {
            hook(panic);
        }
    }));
}

/// What is run may panic: then there is no result.
pub fn quietly<T>(run: impl FnOnce() -> T) -> Option<T> {
    QUIET.set(true);
    let result = panic::catch_unwind(AssertUnwindSafe(run)).ok();
    QUIET.set(false);
    result
}
