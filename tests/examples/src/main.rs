//! The example programs as files, each with the lines that `wirelist` prints and,
//! if it has one, with its text in OpenQASM, from which its listing comes back. The
//! files in the folder `examples` of the current folder are compared with them; with
//! the word `write` they are written. The Bell pair has one listing with its box and
//! without it. Some are simulated: the repetition code puts a flip right, and the adder
//! adds, with CCX and with a box of other gates in its place.

use example_programs::{adder_without_ccx, examples, is_added, is_corrected};
use std::env;
use std::fs;
use std::path::Path;
use std::process::exit;

fn main() {
    let write = env::args().nth(1).is_some_and(|word| word == "write");
    let mut files = 0;
    let mut differences = 0;
    for example in examples() {
        let mut endings = vec![
            ("pqm", &example.file[..]),
            ("txt", example.lines.as_bytes()),
        ];
        let path = Path::new("examples").join(example.name);
        match &example.text {
            Some(text) => endings.push(("qasm", text)),
            None if path.with_extension("qasm").exists() => {
                println!("{} has no text in OpenQASM", example.name);
                differences += 1;
            }
            None => {}
        }
        for (ending, bytes) in endings {
            let path = path.with_extension(ending);
            files += 1;
            if write {
                fs::write(&path, bytes).expect("an example written");
            } else if fs::read(&path).ok().as_deref() != Some(bytes) {
                println!("{} is not as it is built", path.display());
                differences += 1;
            }
        }
        if example.name == "repetition" && !is_corrected(&example.listing) {
            println!("the repetition code does not put every flip right");
            differences += 1;
        }
        if example.name == "adder" && !is_added(&example.listing) {
            println!("the adder does not add");
            differences += 1;
        }
        let text = example.text.as_deref();
        if text.is_some_and(|text| qasm::import(text) != Ok(example.listing)) {
            println!("the text of {} gives another listing", example.name);
            differences += 1;
        }
    }
    let of_name = |name| examples().into_iter().find(|example| example.name == name);
    let [boxed, unboxed] = ["bell", "unboxed"].map(|name| of_name(name).expect("an example"));
    if boxed.listing != unboxed.listing || boxed.lines == unboxed.lines {
        println!("the Bell pair without its box has another listing, or as many steps");
        differences += 1;
    }
    if !is_added(&adder_without_ccx().listing) {
        println!("the adder without CCX does not add");
        differences += 1;
    }
    println!("example_programs: {files} files, {differences} differences");
    exit(if differences == 0 { 0 } else { 1 });
}
