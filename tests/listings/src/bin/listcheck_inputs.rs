//! The table of listings, each with the line that `listcheck` has to print:
//! written into the folder that the argument names, and the longest ones by
//! their names.

use listings::answer::line;
use listings::cases::{all, longest, longest_accepted};
use listings::counting::check;
use std::env;
use std::fs;
use std::path::Path;

fn main() {
    let folder = env::args().nth(1).expect("a folder");
    let write = |name: &str, bytes: &[u8], line: String| {
        let path = Path::new(&folder).join(name);
        fs::write(path.with_extension("listing"), bytes).expect("a listing written");
        fs::write(path.with_extension("txt"), line).expect("a line written");
    };
    for (at, case) in all().iter().enumerate() {
        write(&format!("case_{at}"), &case.bytes, line(&case.answer));
    }
    for (name, listing) in [
        ("longest", longest()),
        ("longest_accepted", longest_accepted()),
    ] {
        let bytes = listing.bytes();
        write(name, &bytes, line(&check(&bytes)));
    }
}
