//! The process that compares, and the calls that the program makes of itself.

use crate::stack::{self, Call};
use std::env;
use std::process::{exit, Command};
use std::thread::{self, JoinHandle};

/// The argument by which the program calls itself to compare.
const ARGUMENT: &str = "compare";

/// The programs that the library is compared with recurse over terms. The
/// stack of the library is measured in `stack`.
const STACK: usize = 256 << 20;

/// What a comparison's `main` does: it compares, and is called for one call on
/// a thread with little stack.
pub fn run(compare: fn(), call: Call) -> ! {
    let arguments: Vec<String> = env::args().skip(1).collect();
    match arguments.first().map(String::as_str) {
        Some(stack::ARGUMENT) => stack::child(&arguments[1..], call),
        Some(ARGUMENT) => child(compare),
        _ => parent(),
    }
}

/// A touch of memory that was not lent ends the process that compares.
fn parent() -> ! {
    let program = env::current_exe().expect("the program's own path");
    let status = Command::new(program).arg(ARGUMENT).status();
    let status = status.expect("a child process");
    if status.code().is_none() {
        println!("difference: memory touched that was not lent, or no stack left ({status})");
    }
    exit(if status.success() { 0 } else { 1 });
}

fn child(compare: fn()) -> ! {
    exit(if thread(compare).join().is_ok() { 0 } else { 1 });
}

/// A thread with enough stack to compare.
pub fn thread<T: Send + 'static>(compare: fn() -> T) -> JoinHandle<T> {
    let thread = thread::Builder::new().stack_size(STACK);
    thread.spawn(compare).expect("a thread")
}
