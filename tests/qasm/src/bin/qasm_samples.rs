//! Generated listings with their texts, NAME.listing and NAME.qasm side by side
//! in the folder that the argument names.

use listings::generate::{foreign, valid, Shape, FOREIGN};
use listings::Listing;
use program_files::Random;
use qasm::answer::first_helper;
use qasm::cases::exports;
use qasm::print;
use std::env;
use std::fs;
use std::path::Path;

/// How many listings have at most so many inputs and gates.
const SIZES: [(usize, usize, usize); 3] = [(300, 5, 12), (100, 20, 60), (20, 64, 400)];

fn main() {
    let folder = env::args().nth(1).expect("a folder");
    fs::create_dir_all(&folder).expect("a folder");
    let mut random = Random::new(9);
    let mut all: Vec<Listing> = exports().into_iter().map(|case| case.listing).collect();
    for (count, inputs, gates) in SIZES {
        for _ in 0..count {
            let shape = match random.below(2) {
                0 => Shape::any(&mut random, inputs, gates),
                _ => Shape::three_wires(&mut random, inputs, gates),
            };
            all.push(valid(&mut random, &shape.without_helpers()));
        }
    }
    for of in FOREIGN {
        for _ in 0..20 {
            all.push(foreign(&mut random, of));
        }
    }
    all.retain(|listing| first_helper(listing).is_none());
    let shape = Shape::most(&mut random).without_helpers();
    all.push(valid(&mut random, &shape));
    for (at, listing) in all.iter().enumerate() {
        let path = Path::new(&folder).join(format!("sample_{at}"));
        fs::write(path.with_extension("listing"), listing.bytes()).expect("a listing written");
        fs::write(path.with_extension("qasm"), print(listing)).expect("a text written");
    }
    println!("qasm_samples: {} listings with their texts", all.len());
}
