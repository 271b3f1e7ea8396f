//! Texts whose lines have the right form, but whose gates and outputs may name
//! any lines.

use crate::cases::HEAD;
use program_files::Random;
use program_files::Wire::{self, Bit, Qubit};

/// What is declared for an input.
fn declaration(line: usize, of: Wire) -> String {
    let bit = format!("creg c{line}[1];\n");
    match of {
        Bit => bit,
        Qubit => format!("qreg q{line}[1];\n{bit}"),
    }
}

/// Every gate of one kind of each form on lines below three: H, CNOT, Meas and
/// BX.
fn gates() -> Vec<String> {
    let mut gates: Vec<String> = (0..3).map(|a| format!("h q{a}[0];\n")).collect();
    for a in 0..3 {
        for b in 0..3 {
            gates.push(format!("cx q{a}[0],q{b}[0];\n"));
            gates.push(format!("measure q{a}[0] -> c{b}[0];\n"));
            gates.push(format!("if(c{a}==1) x q{b}[0];\n"));
        }
    }
    gates
}

/// CCX on all lines below this number.
fn on_three(lines: usize) -> Vec<String> {
    let all = (0..lines.pow(3)).map(|number| {
        let [a, b, c] = [lines * lines, lines, 1].map(|weight| number / weight % lines);
        format!("ccx q{a}[0],q{b}[0],q{c}[0];\n")
    });
    all.collect()
}

/// All texts of three inputs with CCX on lines below four, or with CCX on lines below
/// three and another gate before it or behind, and with some outputs.
pub fn three(mut take: impl FnMut(&[u8])) {
    let mut bodies = on_three(4);
    for ccx in on_three(3) {
        for other in gates().into_iter().chain(on_three(3)) {
            bodies.push(format!("{ccx}{other}"));
            bodies.push(format!("{other}{ccx}"));
        }
    }
    let outputs = [
        " q0 q1 q2",
        " q2 q0 q1",
        " c0 q1 q2",
        " q0 c1 q2",
        " q0 q1 c2",
        " q0 q1",
    ];
    for types in 0..8 {
        let of = |line: usize| match types >> line & 1 {
            0 => Qubit,
            _ => Bit,
        };
        let declared: String = (0..3).map(|line| declaration(line, of(line))).collect();
        for body in &bodies {
            for named in outputs {
                let text = format!("{HEAD}{declared}{body}// out{named}\n");
                take(text.as_bytes());
            }
        }
    }
}

/// All texts of at most two inputs, so many gates and at most two outputs.
pub fn small(most: usize, mut take: impl FnMut(&[u8])) {
    let inputs: [&[Wire]; 7] = [
        &[],
        &[Bit],
        &[Qubit],
        &[Bit, Bit],
        &[Bit, Qubit],
        &[Qubit, Bit],
        &[Qubit, Qubit],
    ];
    let words = ["", " q0", " q1", " c0", " c1", " q2"];
    let mut bodies = vec![String::new()];
    for _ in 0..most {
        let longer = bodies
            .iter()
            .flat_map(|body| gates().into_iter().map(move |gate| format!("{body}{gate}")));
        let longer: Vec<String> = longer.collect();
        bodies.extend(longer);
    }
    bodies.sort();
    bodies.dedup();
    for types in inputs {
        let declared: String = (0..)
            .zip(types)
            .map(|(line, &of)| declaration(line, of))
            .collect();
        for body in &bodies {
            for first in words {
                for second in words {
                    let text = format!("{HEAD}{declared}{body}// out{first}{second}\n");
                    take(text.as_bytes());
                }
            }
        }
    }
}

/// A text of few lines and gates, mostly on lines of the right types, and
/// mostly with all outputs: so that many are right, and of the others many have
/// one fault.
pub fn any(random: &mut Random) -> Vec<u8> {
    let most = random.pick(&[2, 4, 12, 64]);
    let mut lines: Vec<Wire> = Vec::new();
    let mut text = HEAD.to_string();
    for line in 0..random.between(0, most) {
        let of = random.pick(&[Bit, Qubit, Qubit]);
        text += &declaration(line, of);
        lines.push(of);
    }
    for _ in 0..random.between(0, 2 * most) {
        text += &gate(random, &mut lines);
    }
    text += "// out";
    let mut order: Vec<usize> = (0..lines.len()).collect();
    for at in 1..order.len() {
        order.swap(at, random.between(0, at));
    }
    for line in order {
        let letter = match (lines[line], random.one_in(400)) {
            (Bit, false) | (Qubit, true) => 'c',
            (Qubit, false) | (Bit, true) => 'q',
        };
        text += &match random.below(400) {
            0 => String::new(),
            1 => format!(" {letter}{line} {letter}{line}"),
            2 => format!(" {letter}{}", line + 1),
            _ => format!(" {letter}{line}"),
        };
    }
    text += "\n";
    text.into_bytes()
}

/// A gate on lines that mostly have its types, or now and then a declaration.
fn gate(random: &mut Random, lines: &mut Vec<Wire>) -> String {
    let mut pick = |needs: Wire, but: &[usize]| {
        let right = |line: &usize| lines[*line] == needs && !but.contains(line);
        let right: Vec<usize> = (0..lines.len()).filter(right).collect();
        match right.is_empty() || random.one_in(60) {
            true => random.below(lines.len() + 1),
            false => random.pick(&right),
        }
    };
    let (qubit, bit) = (pick(Qubit, &[]), pick(Bit, &[]));
    let other = pick(Qubit, &[qubit]);
    let third = pick(Qubit, &[qubit, other]);
    match random.below(20) {
        0..=6 => format!("{} q{qubit}[0];\n", char::from(random.pick(b"hxzst"))),
        7..=10 => format!("cx q{qubit}[0],q{other}[0];\n"),
        11..=13 => format!(
            "if(c{bit}==1) {} q{qubit}[0];\n",
            char::from(random.pick(b"xz"))
        ),
        14 => {
            if let Some(line) = lines.get_mut(qubit) {
                *line = Bit;
            }
            format!("measure q{qubit}[0] -> c{qubit}[0];\n")
        }
        15..=18 => format!("ccx q{qubit}[0],q{other}[0],q{third}[0];\n"),
        _ if random.one_in(8) => format!("measure q{qubit}[0] -> c{bit}[0];\n"),
        _ if random.one_in(8) => {
            lines.push(Bit);
            declaration(lines.len() - 1, Bit)
        }
        _ => String::new(),
    }
}
