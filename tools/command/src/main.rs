//! The command `pqm`.

use gawipsol::LIMIT;
use pqm::listing::Examined;
use pqm::Refusal;
use pqm_command::draw::draw;
use pqm_command::dump::Dump;
use pqm_command::explain::{explain, explain_file, Sort};
use pqm_command::terminal;
use std::env;
use std::ffi::{OsStr, OsString};
use std::fs;
use std::io::{self, Read, Write};
use std::process::exit;

const USAGE: &str = "\
pqm: programs for the cabinet taken apart, refusals explained, listings drawn.
Not proved; what is refused and where is the proved library's word.

  pqm dump FILE                  the entries of a program file, damaged or not
  pqm explain FILE               runs the program and explains its refusal
  pqm explain FILE NUMBER PLACE  explains this refusal of the file
  pqm list FILE                  runs the program and writes the bytes of its listing
  pqm draw [--width COLUMNS]     draws the listing on standard input

explain takes a file whose name ends in .listing for a listing and exports it, one
whose name ends in .qasm for a text in OpenQASM and imports it. Refusals 24 to 26 and
28 are of listings, 27 of texts, others of programs. Programs are run with limit
1000000. draw wraps at COLUMNS of the environment, else at the terminal's width, else
at 80.

Exit status: 0 done, 1 refused by list or draw, which explain it on standard error, 2
wrong words, or a file that cannot be read or written.
";

fn main() {
    let words: Vec<OsString> = env::args_os().skip(1).collect();
    let known: Vec<&str> = words
        .iter()
        .map(|word| word.to_str().unwrap_or_default())
        .collect();
    match known[..] {
        ["dump", _] => {
            let bytes = bytes_of(&words[1]);
            let refusal = gawipsol::check(&bytes).err();
            print(&Dump::new(&bytes).text(refusal));
        }
        ["explain", name] => print(&explain_file(Sort::of_name(name), &bytes_of(&words[1]))),
        ["explain", _, number, place] => {
            let (Ok(number), Ok(place)) = (number.parse(), place.parse()) else {
                fail("NUMBER and PLACE are numbers, NUMBER at most 255");
            };
            print(&explain(&bytes_of(&words[1]), Refusal { number, place }));
        }
        ["list", _] => {
            let bytes = bytes_of(&words[1]);
            match gawipsol::run(&bytes, LIMIT) {
                Ok(finished) => print_bytes(&finished.listing),
                Err(refusal) => refuse(&bytes, refusal),
            }
        }
        ["draw"] => draw_listing(terminal::width()),
        ["draw", "--width", width] => match width.parse() {
            Ok(width) => draw_listing(width),
            Err(_) => fail("COLUMNS is a number"),
        },
        ["help" | "--help" | "-h"] => print(USAGE),
        _ => {
            tell(USAGE);
            exit(2);
        }
    }
}

fn draw_listing(width: usize) {
    let mut bytes = Vec::new();
    if let Err(error) = io::stdin().read_to_end(&mut bytes) {
        fail(&format!("standard input: {error}"));
    }
    if let Err(refusal) = gawipsol::check_listing(&bytes) {
        refuse(&bytes, refusal);
    }
    match draw(&Examined::new(&bytes), width) {
        Some(drawing) => print(&drawing),
        None => fail("an accepted listing that cannot be drawn"),
    }
}

fn bytes_of(file: &OsStr) -> Vec<u8> {
    match fs::read(file) {
        Ok(bytes) => bytes,
        Err(error) => fail(&format!("{}: {error}", file.to_string_lossy())),
    }
}

fn print(text: &str) {
    print_bytes(text.as_bytes());
}

/// Where the output ends early there is nobody to read more.
fn print_bytes(bytes: &[u8]) {
    let mut output = io::stdout();
    if output
        .write_all(bytes)
        .and_then(|_| output.flush())
        .is_err()
    {
        exit(2);
    }
}

fn tell(text: &str) {
    // What cannot be written is lost.
    let _ = io::stderr().write_all(text.as_bytes());
}

fn refuse(bytes: &[u8], refusal: Refusal) -> ! {
    tell(&explain(bytes, refusal));
    exit(1);
}

fn fail(why: &str) -> ! {
    tell(&format!("pqm: {why}\n"));
    exit(2);
}
