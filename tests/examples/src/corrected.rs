//! What the rounds of the repetition code are for: a flip of any one Qubit is put
//! right.

use listings::{Listing, Sizes};
use qasm::simulate::{are_near, outcomes, Complex};

/// The number of Qubits.
const QUBITS: usize = 3;

/// What was measured, and the amplitude, if from these inputs every output has this
/// value.
fn measured(listing: &Listing, inputs: &[bool], value: bool) -> Option<(Vec<bool>, Complex)> {
    let seen = outcomes(listing, inputs)?;
    let mut seen = seen.into_iter();
    let ((measured, outputs), amplitude) = seen.next()?;
    let is_so = seen.next().is_none() && outputs == [value; QUBITS];
    is_so.then_some((measured, amplitude))
}

/// Whether 000 and 111 come back from each with at most one Qubit flipped, and
/// nothing that is measured tells one from the other: then every superposition of
/// the two comes back too.
pub fn is_corrected(listing: &[u8]) -> bool {
    let sizes = Sizes::of_bytes(listing).expect("sizes");
    let listing = Listing::of_bytes(&sizes, listing);
    (0..=QUBITS).all(|flipped| {
        let [zero, one] = [false, true].map(|value| {
            let inputs = (0..QUBITS).map(|at| value != (at == flipped));
            let inputs: Vec<bool> = inputs.collect();
            measured(&listing, &inputs, value)
        });
        let (Some(zero), Some(one)) = (zero, one) else {
            return false;
        };
        zero.0 == one.0 && are_near(zero.1, one.1)
    })
}
