//! The width of the terminal.

use std::env;
use std::io::{self, IsTerminal};
use std::os::fd::AsRawFd;

/// The columns where there is no terminal, or it does not say.
const COLUMNS: usize = 80;

/// The request TIOCGWINSZ of Linux.
const WINDOW_SIZE: u64 = 0x5413;

#[repr(C)]
#[derive(Default)]
struct WindowSize {
    rows: u16,
    columns: u16,
    pixels: [u16; 2],
}

extern "C" {
    fn ioctl(file: i32, request: u64, ...) -> i32;
}

/// The columns that COLUMNS gives, else those of the terminal on standard output.
pub fn width() -> usize {
    let given = env::var("COLUMNS")
        .ok()
        .and_then(|columns| columns.parse().ok());
    given
        .or_else(of_terminal)
        .filter(|&columns| columns > 0)
        .unwrap_or(COLUMNS)
}

fn of_terminal() -> Option<usize> {
    let output = io::stdout();
    if !output.is_terminal() {
        return None;
    }
    let mut size = WindowSize::default();
    // The request writes one such structure.
    let answer = unsafe {
        ioctl(
            output.as_raw_fd(),
            WINDOW_SIZE,
            &mut size as *mut WindowSize,
        )
    };
    (answer == 0).then_some(usize::from(size.columns))
}
