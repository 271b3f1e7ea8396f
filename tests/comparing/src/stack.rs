//! The least stack on which a call takes the deepest files.

use std::env;
use std::io::{self, Read, Write};
use std::process::{exit, Command, Stdio};
use std::thread;

/// The name of the argument by which the program calls itself.
pub const ARGUMENT: &str = "stack";

/// All in KiB. Every call must work with the first; the least is found among
/// the multiples of the second.
const MOST: usize = 1_024;
const STEP: usize = 16;

/// A call on a file, with buffers of its own; its answer is one number.
pub type Call = fn(&[u8]) -> u64;

/// Makes the call on the file on standard input, on a thread with the stack
/// given; the second number is the answer.
pub fn child(arguments: &[String], call: Call) -> ! {
    let number = |at: usize| -> u64 {
        let word: &String = arguments.get(at).expect("two numbers");
        word.parse().expect("a number")
    };
    let mut file = Vec::new();
    io::stdin().read_to_end(&mut file).expect("a file");
    let thread = thread::Builder::new()
        .stack_size(number(0) as usize * 1_024)
        .spawn(move || call(&file))
        .expect("a thread");
    let answer = thread.join().expect("an answer");
    exit(if answer == number(1) { 0 } else { 1 });
}

fn works(file: &[u8], answer: u64, kib: usize) -> bool {
    let program = env::current_exe().expect("the program's own path");
    // No core file where the stack is too small.
    let mut child = Command::new("sh")
        .args(["-c", "ulimit -c 0; exec \"$0\" \"$@\""])
        .arg(program)
        .args([ARGUMENT, &kib.to_string(), &answer.to_string()])
        .stdin(Stdio::piped())
        .stdout(Stdio::null())
        .stderr(Stdio::null())
        .spawn()
        .expect("a child process");
    let mut input = child.stdin.take().expect("standard input");
    input.write_all(file).expect("a file written");
    drop(input);
    child.wait().expect("a child process").success()
}

/// The least stack with which the call works, by halving the range.
fn least(name: &str, file: &[u8], answer: u64) -> usize {
    let (mut fails, mut least) = (0, MOST / STEP);
    assert!(
        works(file, answer, MOST),
        "{MOST} KiB of stack are too few: {name}"
    );
    while least - fails > 1 {
        let between = fails + (least - fails) / 2;
        match works(file, answer, STEP * between) {
            true => least = between,
            false => fails = between,
        }
    }
    STEP * least
}

/// Prints the least stack for each of these files by its name.
pub fn measure(deepest: Vec<(String, Vec<u8>)>, expected: Call) {
    let mut most = 0;
    for (name, file) in deepest {
        let kib = least(&name, &file, expected(&file));
        println!("least stack for {name}: {kib} KiB");
        most = most.max(kib);
    }
    println!("least stack for all of them: {most} KiB of {MOST} KiB (in steps of {STEP} KiB)");
}
