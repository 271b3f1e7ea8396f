//! Inputs of `qasmout` and `qasmin` with what each has to write, as files NAME
//! and NAME.answer in the folders `out` and `in` of the folder that the argument
//! names; and the listing with the longest text, with that text.

use listings::cases;
use listings::generate::{valid, Shape};
use program_files::Random;
use qasm::answer::{output, Answer};
use qasm::cases::{exports, longest, texts, wordless};
use qasm::{damaged, export, import, print};
use std::env;
use std::fs;
use std::path::{Path, PathBuf};

/// So many times two generated listings, whose texts are damaged, too.
const GENERATED: usize = 12;

struct Folder {
    path: PathBuf,
    files: usize,
}

impl Folder {
    fn new(path: PathBuf) -> Folder {
        fs::create_dir_all(&path).expect("a folder");
        Folder { path, files: 0 }
    }

    fn write(&mut self, input: &[u8], answer: &Answer) {
        let path = self.path.join(format!("input_{}", self.files));
        fs::write(path.with_extension("answer"), output(answer)).expect("an answer written");
        fs::write(path, input).expect("an input written");
        self.files += 1;
    }
}

fn main() {
    let folder = env::args().nth(1).expect("a folder");
    let folder = Path::new(&folder);
    let mut listings = Folder::new(folder.join("out"));
    let mut written = Folder::new(folder.join("in"));
    let mut both = |listing: &[u8]| {
        let text = export(listing);
        listings.write(listing, &text);
        if let Ok(text) = text {
            written.write(&text, &import(&text));
        }
    };
    for case in exports() {
        both(&case.listing.bytes());
    }
    for case in wordless() {
        both(&case.listing.bytes());
    }
    for case in cases::all() {
        both(&case.bytes);
    }
    let mut random = Random::new(8);
    let mut generated = Vec::new();
    for _ in 0..GENERATED {
        let shape = Shape::helpers(&mut random, 16, 40);
        both(&valid(&mut random, &shape).bytes());
        let shape = Shape::any(&mut random, 16, 40).without_helpers();
        generated.push(valid(&mut random, &shape));
        let shape = Shape::three_wires(&mut random, 16, 40).without_helpers();
        generated.push(valid(&mut random, &shape));
    }
    for listing in &generated {
        both(&listing.bytes());
    }
    for listing in &generated {
        let text = damaged::any(&mut random, &print(listing));
        written.write(&text, &import(&text));
    }
    for text in texts() {
        written.write(&text.text, &import(&text.text));
    }
    let longest = longest();
    fs::write(folder.join("longest.listing"), longest.bytes()).expect("a listing written");
    fs::write(folder.join("longest.qasm"), print(&longest)).expect("a text written");
}
