//! The text of a listing that is accepted and whose gates all have a word, one
//! line after another.

use listings::Listing;
use program_files::Wire;

/// The line on which a wire is, and its type.
#[derive(Clone, Copy)]
struct Placed {
    line: usize,
    of: Wire,
}

pub fn print(listing: &Listing) -> Vec<u8> {
    let mut text = String::from("OPENQASM 2.0;\ninclude \"qelib1.inc\";\n");
    let mut wires = Vec::new();
    for (line, input) in listing.inputs.iter().enumerate() {
        let of = input.as_input().expect("an input");
        if of == Wire::Qubit {
            text += &format!("qreg q{line}[1];\n");
        }
        text += &format!("creg c{line}[1];\n");
        wires.push(Placed { line, of });
    }
    for entry in &listing.gates {
        let gate = entry.as_gate().expect("a gate");
        let taken = entry.slots.iter().take(gate.takes.len());
        let line = |&wire: &u16| wires[usize::from(wire)].line;
        let lines: Vec<usize> = taken.map(line).collect();
        text += &gate_line(gate.name, &lines);
        for (&line, &of) in lines.iter().zip(gate.makes) {
            wires.push(Placed { line, of });
        }
    }
    text += "// out";
    for &output in &listing.outputs {
        let Placed { line, of } = wires[usize::from(output)];
        text += &match of {
            Wire::Bit => format!(" c{line}"),
            Wire::Qubit => format!(" q{line}"),
        };
    }
    text += "\n";
    text.into_bytes()
}

/// The line of a gate that takes the wires of these lines.
fn gate_line(name: &str, lines: &[usize]) -> String {
    match (name, lines) {
        ("H", [a]) => format!("h q{a}[0];\n"),
        ("X", [a]) => format!("x q{a}[0];\n"),
        ("Z", [a]) => format!("z q{a}[0];\n"),
        ("S", [a]) => format!("s q{a}[0];\n"),
        ("T", [a]) => format!("t q{a}[0];\n"),
        ("CNOT", [a, b]) => format!("cx q{a}[0],q{b}[0];\n"),
        ("Meas", [a]) => format!("measure q{a}[0] -> c{a}[0];\n"),
        ("BX", [a, b]) => format!("if(c{a}==1) x q{b}[0];\n"),
        ("BZ", [a, b]) => format!("if(c{a}==1) z q{b}[0];\n"),
        ("CCX", [a, b, c]) => format!("ccx q{a}[0],q{b}[0],q{c}[0];\n"),
        _ => panic!("no line for {name} on {lines:?}"),
    }
}
