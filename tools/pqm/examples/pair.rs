use pqm::{apply, boxed_lambda, file, label, let_pair, types::qubits, Wire::Qubit, CNOT, H, MEAS};

fn main() -> Result<(), Box<dyn std::error::Error>> {
    let entangle = boxed_lambda(qubits(2), |wires| {
        let_pair(wires, |a, b| apply(CNOT, (apply(H, a), b)))
    });
    let entangled = apply(entangle, (label(0), label(1)));
    let term = let_pair(entangled, |a, b| (apply(MEAS, a), b));
    Ok(std::fs::write("pair.pqm", file(&[Qubit, Qubit], term)?)?)
}
