//! What the adder is for: two Qubits and a carry are added.

use listings::{Listing, Sizes};
use qasm::simulate::{are_near, outcomes};

/// The number of inputs.
const INPUTS: usize = 4;

/// Whether from every choice of the inputs the first two come back, and the third is
/// the sum, the fourth flipped by the carry; and nothing else comes, with amplitude 1.
pub fn is_added(listing: &[u8]) -> bool {
    let sizes = Sizes::of_bytes(listing).expect("sizes");
    let listing = Listing::of_bytes(&sizes, listing);
    (0..1 << INPUTS).all(|choice| {
        let inputs: [bool; INPUTS] = std::array::from_fn(|at| choice >> at & 1 == 1);
        let [a, b, c, carry] = inputs;
        let ones = [a, b, c].into_iter().filter(|&one| one).count();
        let sum = vec![a, b, ones % 2 == 1, carry != (ones > 1)];
        let seen = outcomes(&listing, &inputs).unwrap_or_default();
        let amplitude = seen.get(&(Vec::new(), sum));
        seen.len() == 1 && amplitude.is_some_and(|&amplitude| are_near(amplitude, [1.0, 0.0]))
    })
}
