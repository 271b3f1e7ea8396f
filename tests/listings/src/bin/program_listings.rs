//! Runs the program files that are named behind a folder by the second
//! evaluator, and writes their listings into that folder.

use evaluator::text::LIMIT;
use evaluator::Answer;
use std::env;
use std::fs;
use std::path::Path;

fn main() {
    let mut arguments = env::args().skip(1);
    let folder = arguments.next().expect("a folder");
    for argument in arguments {
        let program = Path::new(&argument);
        let file = fs::read(program).expect("a program file");
        let Answer::Finished { listing, .. } = evaluator::run(&file, LIMIT) else {
            panic!("{argument} does not finish");
        };
        let name = program.file_stem().expect("a file's name");
        let path = Path::new(&folder).join(name).with_extension("listing");
        fs::write(path, listing).expect("a listing written");
    }
}
