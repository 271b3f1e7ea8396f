//! What texts compute, against what the listings compute.

use comparing::Planted;
use listings::generate::{valid, Shape};
use planted::{Print, PRINTERS};
use program_files::Random;
use qasm::{print, simulate};

/// So many listings, each of at most so many inputs and gates.
const LISTINGS: usize = 1_500;
const INPUTS: usize = 4;
const GATES: usize = 12;

/// So many of them must tell each of these faults.
const LEAST_FOUND: usize = 3;

/// Faults of the printer whose texts have a meaning, but another one.
const OTHER_MEANING: [&str; 28] = [
    "BX under a Bit that is 0",
    "BZ under a Bit that is 0",
    "BX on the Bit's line",
    "z for BX",
    "x for BZ",
    "z for X",
    "x for Z",
    "t for S",
    "s for T",
    "the lines of CNOT exchanged",
    "measured into the first register",
    "gates in reverse",
    "the last gate left out",
    "the line of a gate's wire from its number",
    "the line of an output from its place",
    "a gate's outputs on each other's lines",
    "outputs reversed",
    "outputs sorted",
    "every output a Bit",
    "cx for CCX",
    "the second and the third register of CCX exchanged",
    "the first and the third register of CCX exchanged",
    "the target of CCX first",
    "the first register of CCX last",
    "CCX as two CNOTs",
    "CCX left out",
    "the last two outputs of CCX on each other's lines",
    "the third output of CCX on the second's line",
];

/// The fault of the printer whose texts have the same meaning.
const SAME_MEANING: &str = "the controls of CCX exchanged";

/// Simulates the texts, which have been compared with those under test.
pub fn compare() {
    let mut random = Random::new(7);
    let meant = PRINTERS.into_iter();
    let meant = meant.filter(|(name, _)| OTHER_MEANING.contains(name));
    let meant: Vec<(&str, Print)> = meant.collect();
    assert_eq!(meant.len(), OTHER_MEANING.len(), "a fault of another name");
    let mut planted = Planted::new(LEAST_FOUND, meant);
    let same = PRINTERS.into_iter().find(|(name, _)| *name == SAME_MEANING);
    let (_, same) = same.expect("a fault of this name");
    let mut gates = 0;
    for number in 0..LISTINGS {
        let shape = match number % 2 {
            0 => Shape::any(&mut random, INPUTS, GATES),
            _ => Shape::three_wires(&mut random, INPUTS, GATES),
        };
        let listing = valid(&mut random, &shape.without_helpers());
        gates += listing.gates.len();
        for text in [print(&listing), same(&listing)] {
            if let Err(words) = simulate::compare(&text, &listing) {
                panic!("difference in meaning: {words}\n{listing:?}");
            }
        }
        planted.look(number, |print| {
            simulate::compare(&print(&listing), &listing).is_err()
        });
    }
    println!("{LISTINGS:>9} texts of {gates} gates simulated on all inputs");
    planted.report("simulation");
}
