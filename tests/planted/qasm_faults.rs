//! The faults that are planted in copies of the printer and of the parser of
//! OpenQASM, as edits of their source.

use crate::faults::Edit;

/// Of the printer.
pub const PRINTERS: &[(&str, &[Edit])] = &[
    (
        "BX under a Bit that is 0",
        &[("print", "if(c{a}==1) x", "if(c{a}==0) x")],
    ),
    (
        "BZ under a Bit that is 0",
        &[("print", "if(c{a}==1) z", "if(c{a}==0) z")],
    ),
    (
        "BX under the Qubit's line",
        &[("print", "if(c{a}==1) x", "if(c{b}==1) x")],
    ),
    (
        "BZ under the Qubit's line",
        &[("print", "if(c{a}==1) z", "if(c{b}==1) z")],
    ),
    (
        "BX on the Bit's line",
        &[("print", "==1) x q{b}", "==1) x q{a}")],
    ),
    (
        "BZ with its lines exchanged",
        &[("print", "if(c{a}==1) z q{b}", "if(c{b}==1) z q{a}")],
    ),
    ("z for BX", &[("print", "==1) x q", "==1) z q")]),
    ("x for BZ", &[("print", "==1) z q", "==1) x q")]),
    ("z for X", &[("print", r#""x q{a}[0];"#, r#""z q{a}[0];"#)]),
    ("x for Z", &[("print", r#""z q{a}[0];"#, r#""x q{a}[0];"#)]),
    ("t for S", &[("print", r#""s q{a}[0];"#, r#""t q{a}[0];"#)]),
    (
        "sdg for S",
        &[("print", r#""s q{a}[0];"#, r#""sdg q{a}[0];"#)],
    ),
    ("s for T", &[("print", r#""t q{a}[0];"#, r#""s q{a}[0];"#)]),
    ("H for h", &[("print", r#""h q{a}[0];"#, r#""H q{a}[0];"#)]),
    ("CX for CNOT", &[("print", r#""cx q{a}"#, r#""CX q{a}"#)]),
    (
        "the lines of CNOT exchanged",
        &[("print", "cx q{a}[0],q{b}[0];", "cx q{b}[0],q{a}[0];")],
    ),
    (
        "a space behind the comma",
        &[("print", "cx q{a}[0],q{b}[0];", "cx q{a}[0], q{b}[0];")],
    ),
    (
        "measured into the first register",
        &[("print", "-> c{a}[0]", "-> c0[0]")],
    ),
    (
        "measured from the whole register",
        &[("print", "measure q{a}[0] ->", "measure q{a} ->")],
    ),
    (
        "no spaces around the arrow",
        &[("print", "[0] -> c", "[0]->c")],
    ),
    (
        "the bit by its index",
        &[("print", "if(c{a}==1) x", "if(c{a}[0]==1) x")],
    ),
    (
        "the register of a Qubit's bit left out",
        &[(
            "print",
            r#"text += &format!("creg c{line}[1];\n");"#,
            r#"if of == Wire::Bit {
                    text += &format!("creg c{line}[1];\n");
                }"#,
        )],
    ),
    (
        "a qubit declared for a Bit",
        &[("print", "if of == Wire::Qubit {", "if true {")],
    ),
    (
        "a Qubit's bit declared first",
        &[
            (
                "print",
                r#"text += &format!("qreg q{line}[1];\n");"#,
                r#"text += &format!("creg c{line}[1];\nqreg q{line}[1];\n");"#,
            ),
            (
                "print",
                r#"text += &format!("creg c{line}[1];\n");"#,
                r#"if of == Wire::Bit {
                    text += &format!("creg c{line}[1];\n");
                }"#,
            ),
        ],
    ),
    (
        "all qubits declared before the bits",
        &[(
            "print",
            "for entry in &listing.gates {",
            r#"let (mut qubits, mut bits) = (String::new(), String::new());
                for line in text.split_inclusive('\n').skip(2) {
                    if line.starts_with('q') { qubits += line } else { bits += line }
                }
                text = text.split_inclusive('\n').take(2).collect::<String>() + &qubits + &bits;
                for entry in &listing.gates {"#,
        )],
    ),
    (
        "declarations in reverse",
        &[(
            "print",
            "for entry in &listing.gates {",
            r#"let lines: Vec<String> = text.lines().map(String::from).collect();
                let reversed: Vec<String> = lines[2..].iter().rev().cloned().collect();
                text = [&lines[..2], &reversed[..]].concat().join("\n") + "\n";
                for entry in &listing.gates {"#,
        )],
    ),
    (
        "registers of size 2",
        &[("print", r#""qreg q{line}[1];"#, r#""qreg q{line}[2];"#)],
    ),
    ("index 1", &[("print", r#""t q{a}[0];"#, r#""t q{a}[1];"#)]),
    (
        "lines numbered from 1",
        &[(
            "print",
            "wires.push(Placed { line, of });
    }
    for entry",
            "wires.push(Placed { line: line + 1, of });
    }
    for entry",
        )],
    ),
    (
        "numbers of two digits",
        &[("print", r#""creg c{line}[1]"#, r#""creg c{line:02}[1]"#)],
    ),
    (
        "outputs of two digits",
        &[("print", r#"" q{line}""#, r#"" q{line:02}""#)],
    ),
    (
        "gates in reverse",
        &[
            (
                "print",
                "for entry in &listing.gates {",
                "let declared = text.len();
                for entry in &listing.gates {",
            ),
            (
                "print",
                "text += &gate_line(gate.name, &lines);",
                "text.insert_str(declared, &gate_line(gate.name, &lines));",
            ),
        ],
    ),
    (
        "the last gate left out",
        &[
            (
                "print",
                "for entry in &listing.gates {",
                "let count = listing.gates.len();
                for (at, entry) in listing.gates.iter().enumerate() {",
            ),
            (
                "print",
                "text += &gate_line(gate.name, &lines);",
                "if at + 1 < count || count < 2 {
                    text += &gate_line(gate.name, &lines);
                }",
            ),
        ],
    ),
    (
        "the line of a gate's wire from its number",
        &[(
            "print",
            "wires[usize::from(wire)].line",
            "usize::from(wire).min(wires.len()) % listing.inputs.len()",
        )],
    ),
    (
        "the line of an output from its number",
        &[(
            "print",
            "let Placed { line, of } = wires[usize::from(output)];",
            "let Placed { of, .. } = wires[usize::from(output)];
                let line = output;",
        )],
    ),
    (
        "the line of an output from its place",
        &[
            (
                "print",
                "for &output in &listing.outputs {",
                "for (line, &output) in listing.outputs.iter().enumerate() {",
            ),
            (
                "print",
                "let Placed { line, of } = wires",
                "let Placed { of, .. } = wires",
            ),
        ],
    ),
    (
        "a gate's outputs on each other's lines",
        &[(
            "print",
            "for (&line, &of) in lines.iter().zip",
            "for (&line, &of) in lines.iter().rev().zip",
        )],
    ),
    (
        "a gate's second output on the first's line",
        &[(
            "print",
            "wires.push(Placed { line, of });
        }",
            "wires.push(Placed { line: lines[0], of });
                let _ = line;
        }",
        )],
    ),
    (
        "a gate's outputs on lines of their own",
        &[(
            "print",
            "wires.push(Placed { line, of });
        }",
            "wires.push(Placed { line: wires.len() % 64, of });
                let _ = line;
        }",
        )],
    ),
    (
        "a measured wire a Qubit",
        &[("print", ".zip(gate.makes)", ".zip(gate.takes)")],
    ),
    (
        "outputs reversed",
        &[(
            "print",
            "for &output in &listing.outputs {",
            "for &output in listing.outputs.iter().rev() {",
        )],
    ),
    (
        "outputs sorted",
        &[(
            "print",
            "for &output in &listing.outputs {",
            "let mut sorted = listing.outputs.clone();
                sorted.sort();
                for &output in &sorted {",
        )],
    ),
    (
        "the last output left out",
        &[(
            "print",
            "for &output in &listing.outputs {",
            "for &output in listing.outputs.iter().rev().skip(1).rev() {",
        )],
    ),
    (
        "every output a Qubit",
        &[("print", r#"" c{line}""#, r#"" q{line}""#)],
    ),
    (
        "every output a Bit",
        &[("print", r#"" q{line}""#, r#"" c{line}""#)],
    ),
    (
        "outputs parted by commas",
        &[("print", r#"" c{line}""#, r#"",c{line}""#)],
    ),
    (
        "no space behind the slashes",
        &[("print", r#""// out""#, r#""//out""#)],
    ),
    (
        "a space behind the last word",
        &[(
            "print",
            r#"text += "\n";
    text.into"#,
            r#"text += " \n";
    text.into"#,
        )],
    ),
    (
        "a space where no output is",
        &[(
            "print",
            r#"text += "\n";
    text.into"#,
            r#"if listing.outputs.is_empty() {
                    text += " ";
                }
                text += "\n";
    text.into"#,
        )],
    ),
    (
        "no last line end",
        &[(
            "print",
            r#"text += "\n";
    text.into"#,
            "text.into",
        )],
    ),
    (
        "an empty line at the end",
        &[(
            "print",
            r#"text += "\n";
    text.into"#,
            r#"text += "\n\n";
    text.into"#,
        )],
    ),
    (
        "line ends of two bytes",
        &[(
            "print",
            "text.into_bytes()",
            r#"text.replace("\n", "\r\n").into_bytes()"#,
        )],
    ),
    (
        "no include",
        &[(
            "print",
            r#"OPENQASM 2.0;\ninclude \"qelib1.inc\";\n"#,
            r#"OPENQASM 2.0;\n"#,
        )],
    ),
    ("version 3.0", &[("print", "OPENQASM 2.0", "OPENQASM 3.0")]),
    (
        "no outputs named",
        &[
            ("print", r#"text += "// out";"#, r#"text += "";"#),
            ("print", r#"" c{line}""#, r#""""#),
            ("print", r#"" q{line}""#, r#""""#),
            (
                "print",
                r#"text += "\n";
    text.into"#,
                "text.into",
            ),
        ],
    ),
    (
        "cx for CCX",
        &[(
            "print",
            "ccx q{a}[0],q{b}[0],q{c}[0];",
            "cx q{a}[0],q{b}[0];",
        )],
    ),
    (
        "CCX on two registers",
        &[(
            "print",
            "ccx q{a}[0],q{b}[0],q{c}[0];",
            "ccx q{a}[0],q{b}[0];",
        )],
    ),
    (
        "CCX with its second register twice",
        &[(
            "print",
            "ccx q{a}[0],q{b}[0],q{c}[0];",
            "ccx q{a}[0],q{b}[0],q{b}[0];",
        )],
    ),
    (
        "the controls of CCX exchanged",
        &[(
            "print",
            "ccx q{a}[0],q{b}[0],q{c}[0];",
            "ccx q{b}[0],q{a}[0],q{c}[0];",
        )],
    ),
    (
        "the second and the third register of CCX exchanged",
        &[(
            "print",
            "ccx q{a}[0],q{b}[0],q{c}[0];",
            "ccx q{a}[0],q{c}[0],q{b}[0];",
        )],
    ),
    (
        "the first and the third register of CCX exchanged",
        &[(
            "print",
            "ccx q{a}[0],q{b}[0],q{c}[0];",
            "ccx q{c}[0],q{b}[0],q{a}[0];",
        )],
    ),
    (
        "the target of CCX first",
        &[(
            "print",
            "ccx q{a}[0],q{b}[0],q{c}[0];",
            "ccx q{c}[0],q{a}[0],q{b}[0];",
        )],
    ),
    (
        "the first register of CCX last",
        &[(
            "print",
            "ccx q{a}[0],q{b}[0],q{c}[0];",
            "ccx q{b}[0],q{c}[0],q{a}[0];",
        )],
    ),
    (
        "CCX as two CNOTs",
        &[(
            "print",
            "ccx q{a}[0],q{b}[0],q{c}[0];",
            r"cx q{a}[0],q{c}[0];\ncx q{b}[0],q{c}[0];",
        )],
    ),
    (
        "CCX left out",
        &[("print", r"ccx q{a}[0],q{b}[0],q{c}[0];\n", "")],
    ),
    (
        "CCX in capitals",
        &[("print", r#""ccx q{a}"#, r#""CCX q{a}"#)],
    ),
    (
        "a space behind the second comma of CCX",
        &[("print", ",q{c}[0];", ", q{c}[0];")],
    ),
    (
        "the whole third register of CCX",
        &[("print", "q{c}[0];", "q{c};")],
    ),
    (
        "the last two outputs of CCX on each other's lines",
        &[(
            "print",
            "for (&line, &of) in lines.iter().zip(gate.makes) {",
            "let mut lines = lines;
            if gate.name == \"CCX\" {
                lines.swap(1, 2);
            }
            for (&line, &of) in lines.iter().zip(gate.makes) {",
        )],
    ),
    (
        "the third output of CCX on the second's line",
        &[(
            "print",
            "for (&line, &of) in lines.iter().zip(gate.makes) {",
            "let mut lines = lines;
            if gate.name == \"CCX\" {
                lines[2] = lines[1];
            }
            for (&line, &of) in lines.iter().zip(gate.makes) {",
        )],
    ),
];

/// Of the parser.
pub const PARSERS: &[(&str, &[Edit])] = &[
    (
        "a Bit that is 0",
        &[
            (
                "parse",
                "==1) x q",
                "==0) x q",
            ),
        ],
    ),
    (
        "== 0 taken, too",
        &[
            (
                "parse",
                "x.or_else(z)",
                r#"let w = || parted(line, b"==0) x q").map(|(bit, qubit)| (7, vec![bit, qubit]));
                x.or_else(z).or_else(w)"#,
            ),
        ],
    ),
    (
        "any value of a Bit taken",
        &[
            (
                "parse",
                "fn conditional(line: &[u8]) -> Option<(u8, Vec<usize>)> {",
                r#"fn conditional(line: &[u8]) -> Option<(u8, Vec<usize>)> {
                    let mut line = line.to_vec();
                    if let Some(at) = line.windows(2).position(|bytes| bytes == b"==") {
                        if let Some(digit) = line.get_mut(at + 2) {
                            if digit.is_ascii_digit() {
                                *digit = b'1';
                            }
                        }
                    }
                    let line = &line[..];"#,
            ),
        ],
    ),
    (
        "BZ for x",
        &[
            (
                "parse",
                "(7, vec![bit, qubit])",
                "(8, vec![bit, qubit])",
            ),
        ],
    ),
    (
        "BX for z",
        &[
            (
                "parse",
                "(8, vec![bit, qubit])",
                "(7, vec![bit, qubit])",
            ),
        ],
    ),
    (
        "the lines of BX exchanged",
        &[
            (
                "parse",
                "(7, vec![bit, qubit])",
                "(7, vec![qubit, bit])",
            ),
        ],
    ),
    (
        "the lines of CNOT exchanged",
        &[
            (
                "parse",
                "vec![control, target]",
                "vec![target, control]",
            ),
        ],
    ),
    (
        "a measurement into any bit",
        &[
            (
                "parse",
                "(from == to).then_some((6, vec![from]))",
                "Some((6, vec![from]))",
            ),
        ],
    ),
    (
        "the line of a measurement from its bit",
        &[
            (
                "parse",
                "(from == to).then_some((6, vec![from]))",
                "Some((6, vec![to]))",
            ),
        ],
    ),
    (
        "X and Z exchanged",
        &[
            (
                "parse",
                r#"b"hxzst""#,
                r#"b"hzxst""#,
            ),
        ],
    ),
    (
        "y as Z",
        &[
            (
                "parse",
                r#"let gate = b"hxzst".iter()"#,
                r#"let name = if name == b'y' { b'z' } else { name };
                let gate = b"hxzst".iter()"#,
            ),
        ],
    ),
    (
        "names of gates in capitals",
        &[
            (
                "parse",
                r#"let gate = b"hxzst".iter()"#,
                r#"let name = name.to_ascii_lowercase();
                let gate = b"hxzst".iter()"#,
            ),
        ],
    ),
    (
        "a leading zero taken",
        &[
            (
                "parse",
                "[ten @ b'1'..=b'9', one",
                "[ten @ b'0'..=b'9', one",
            ),
        ],
    ),
    (
        "many leading zeros taken",
        &[
            (
                "parse",
                "match *digits {",
                "let zeros = digits.iter().take_while(|&&digit| digit == b'0').count();
                match *if zeros < digits.len() { &digits[zeros..] } else { &digits[..digits.len().min(1)] } {",
            ),
        ],
    ),
    (
        "a sign before a number taken",
        &[
            (
                "parse",
                "match *digits {",
                r#"match *digits.strip_prefix(b"+").unwrap_or(digits) {"#,
            ),
        ],
    ),
    (
        "no digit is 0",
        &[
            (
                "parse",
                "match *digits {",
                "if digits.is_empty() {
                    return Some(0);
                }
                match *digits {",
            ),
        ],
    ),
    (
        "numbers modulo 64",
        &[
            (
                "parse",
                "Some(10 * value(ten) + value(one))",
                "Some((10 * value(ten) + value(one)) % 64)",
            ),
        ],
    ),
    (
        "numbers modulo 100",
        &[
            (
                "parse",
                "match *digits {",
                "match digits[digits.len().saturating_sub(2)..] {",
            ),
        ],
    ),
    (
        "the types of lines ignored",
        &[
            (
                "parse",
                "(of == needs).then_some(wire)",
                "Some(wire)",
            ),
        ],
    ),
    (
        "a Bit taken for a Qubit",
        &[
            (
                "parse",
                "(of == needs).then_some(wire)",
                "(of == needs || needs == Wire::Qubit).then_some(wire)",
            ),
        ],
    ),
    (
        "a Qubit taken for a Bit",
        &[
            (
                "parse",
                "(of == needs).then_some(wire)",
                "(of == needs || needs == Wire::Bit).then_some(wire)",
            ),
        ],
    ),
    (
        "a gate's wires stay until it is done",
        &[
            (
                "parse",
                "self.lines.get_mut(line)?.take()?",
                "(*self.lines.get(line)?)?",
            ),
            (
                "parse",
                "let wire = self.take(number(line)?, of)?;",
                "let wire = self.take(number(line)?, of)?;
                self.lines[number(line)?] = None;",
            ),
        ],
    ),
    (
        "a measured line a Qubit",
        &[
            (
                "parse",
                ".zip(gate.makes) {
            self.make",
                ".zip(gate.takes) {
            self.make",
            ),
        ],
    ),
    (
        "a gate's wires in reverse",
        &[
            (
                "parse",
                "Entry::gate(number, &wires)",
                "Entry::gate(number, &wires.into_iter().rev().collect::<Vec<u16>>())",
            ),
        ],
    ),
    (
        "a gate's new wires in reverse",
        &[
            (
                "parse",
                "for (&line, &of) in lines.iter().zip(gate.makes) {",
                "for (&line, &of) in lines.iter().zip(gate.makes).rev() {",
            ),
        ],
    ),
    (
        "wires numbered as lines",
        &[
            (
                "parse",
                "self.lines[line] = Some((self.next, of));",
                "self.lines[line] = Some((line as u16, of));",
            ),
        ],
    ),
    (
        "the letter of an output ignored",
        &[
            (
                "parse",
                "let wire = self.take(number(line)?, of)?;
            self",
                "let line = number(line)?;
                let of = self.lines.get(line).copied().flatten().map_or(of, |(_, of)| of);
                let wire = self.take(line, of)?;
            self",
            ),
        ],
    ),
    (
        "an output named twice",
        &[
            (
                "parse",
                "let wire = self.take(number(line)?, of)?;
            self",
                "let again = self.lines.get(number(line)?).copied().flatten();
                let Some(wire) = self.take(number(line)?, of) else {
                    if again.is_none() && number(line)? < self.lines.len() {
                        continue;
                    }
                    return None;
                };
            self",
            ),
        ],
    ),
    (
        "an output left out",
        &[
            (
                "parse",
                "self.lines.iter().all(Option::is_none).then_some(())",
                "Some(())",
            ),
        ],
    ),
    (
        "the last line left out of the outputs",
        &[
            (
                "parse",
                "self.lines.iter().all(Option::is_none).then_some(())",
                "self.lines.iter().rev().skip(1).all(Option::is_none).then_some(())",
            ),
        ],
    ),
    (
        "outputs in reverse",
        &[
            (
                "parse",
                "self.lines.iter().all(Option::is_none).then_some(())",
                "self.listing.outputs.reverse();
                self.lines.iter().all(Option::is_none).then_some(())",
            ),
        ],
    ),
    (
        "outputs by their lines",
        &[
            (
                "parse",
                "self.listing.outputs.push(wire);",
                "let _ = wire;
                self.listing.outputs.push(number(line)? as u16);",
            ),
        ],
    ),
    (
        "spaces behind the outputs",
        &[
            (
                "parse",
                "let mut words = line.split",
                r#"let mut line = line;
                while let Some(shorter) = line.strip_suffix(b" ") {
                    line = shorter;
                }
                let mut words = line.split"#,
            ),
        ],
    ),
    (
        "any spaces between the outputs",
        &[
            (
                "parse",
                "for word in words {",
                "for word in words.filter(|word| !word.is_empty()) {",
            ),
        ],
    ),
    (
        "any comment for the outputs",
        &[
            (
                "parse",
                r#"(words.next()? == b"//" && words.next()? == b"out").then_some(())?;"#,
                r#"(words.next()? == b"//").then_some(())?;
                words.next()?;"#,
            ),
        ],
    ),
    (
        "no comment for no output",
        &[
            (
                "parse",
                "circuit.outputs(outputs)?;",
                r#"if !(circuit.lines.is_empty() && outputs.starts_with(b"//")) {
                    circuit.outputs(outputs)?;
                }"#,
            ),
        ],
    ),
    (
        "65 inputs taken",
        &[
            (
                "parse",
                "(number < MOST_INPUTS)",
                "(number <= MOST_INPUTS)",
            ),
        ],
    ),
    (
        "64 inputs refused",
        &[
            (
                "parse",
                "(number < MOST_INPUTS)",
                "(number + 1 < MOST_INPUTS)",
            ),
        ],
    ),
    (
        "no inputs refused",
        &[
            (
                "parse",
                "circuit.outputs(outputs)?;",
                "circuit.outputs(outputs)?;
                (!circuit.lines.is_empty()).then_some(())?;",
            ),
        ],
    ),
    (
        "2,049 gates taken",
        &[
            (
                "parse",
                "gates.len() <= MOST_GATES",
                "gates.len() <= MOST_GATES + 1",
            ),
        ],
    ),
    (
        "2,048 gates refused",
        &[
            (
                "parse",
                "gates.len() <= MOST_GATES",
                "gates.len() < MOST_GATES",
            ),
        ],
    ),
    (
        "no gates refused",
        &[
            (
                "parse",
                "(gates.len() <= MOST_GATES)",
                "(!gates.is_empty() && gates.len() <= MOST_GATES)",
            ),
        ],
    ),
    (
        "inputs in any order",
        &[
            (
                "parse",
                r#"declared(first, "creg c") == Some(number) =>"#,
                r#"declared(first, "creg c").is_some() =>"#,
            ),
        ],
    ),
    (
        "numbers of a Qubit's registers may differ",
        &[
            (
                "parse",
                r#"(declared(second, "creg c")? == number).then_some"#,
                r#"declared(second, "creg c").is_some().then_some"#,
            ),
        ],
    ),
    (
        "the bit of a Qubit left out",
        &[
            (
                "parse",
                r#"(declared(second, "creg c")? == number).then_some((Wire::Qubit, rest))?"#,
                r#"match declared(second, "creg c") {
                    Some(other) if other == number => (Wire::Qubit, rest),
                    _ => (Wire::Qubit, &body[1..]),
                }"#,
            ),
        ],
    ),
    (
        "a Qubit's bit first",
        &[
            (
                "parse",
                r#"[first, rest @ ..] if declared(first, "creg c")"#,
                r#"[first, second, rest @ ..]
                if declared(first, "creg c") == Some(number)
                && declared(second, "qreg q") == Some(number) =>
                {
                    (Wire::Qubit, rest)
                }
                [first, rest @ ..] if declared(first, "creg c")"#,
            ),
        ],
    ),
    (
        "registers of any size",
        &[
            (
                "parse",
                r#"number(line.strip_suffix(b"[1];")?)"#,
                r#"let at = line.iter().position(|&byte| byte == b'[')?;
                number(line[at..].strip_prefix(b"[")?.strip_suffix(b"];")?)?;
                number(&line[..at])"#,
            ),
        ],
    ),
    (
        "declarations between gates",
        &[
            (
                "parse",
                "for line in gates {",
                r#"for line in gates {
                    let next = circuit.lines.len();
                    if next < MOST_INPUTS && declared(line, "creg c") == Some(next) {
                        circuit.listing.inputs.push(Entry::input(Wire::Bit));
                        circuit.lines.push(None);
                        circuit.make(next, Wire::Bit);
                        continue;
                    }"#,
            ),
        ],
    ),
    (
        "any version",
        &[
            (
                "parse",
                "*version == VERSION && ",
                r#"version.starts_with(b"OPENQASM ") && "#,
            ),
        ],
    ),
    (
        "any include",
        &[
            (
                "parse",
                " && *include == INCLUDE",
                r#" && include.starts_with(b"include ")"#,
            ),
        ],
    ),
    (
        "no include",
        &[
            (
                "parse",
                "let [version, include, body @ .., outputs] = &lines[..] else {",
                "let mut lines = lines;
                if lines.len() > 1 && lines[1] != INCLUDE {
                    lines.insert(1, INCLUDE);
                }
                let [version, include, body @ .., outputs] = &lines[..] else {",
            ),
        ],
    ),
    (
        "no last line end taken",
        &[
            (
                "parse",
                r#"text.strip_suffix(b"\n")?"#,
                r#"text.strip_suffix(b"\n").unwrap_or(text)"#,
            ),
        ],
    ),
    (
        "lines behind the outputs taken",
        &[
            (
                "parse",
                r#"let lines: Vec<&[u8]> = text.split(|&byte| byte == b'\n').collect();"#,
                r#"let mut lines: Vec<&[u8]> = text.split(|&byte| byte == b'\n').collect();
                if let Some(at) = lines.iter().position(|line| line.starts_with(b"// out")) {
                    lines.truncate(at + 1);
                }"#,
            ),
        ],
    ),
    (
        "empty lines at the end taken",
        &[
            (
                "parse",
                "let lines: Vec<&[u8]> = text",
                r#"let mut text = text;
                while let Some(shorter) = text.strip_suffix(b"\n") {
                    text = shorter;
                }
                let lines: Vec<&[u8]> = text"#,
            ),
        ],
    ),
    (
        "empty lines taken",
        &[
            (
                "parse",
                r#"b'\n').collect();"#,
                r#"b'\n').filter(|line| !line.is_empty()).collect();"#,
            ),
        ],
    ),
    (
        "comments among the gates taken",
        &[
            (
                "parse",
                "for line in gates {",
                r#"for line in gates {
                    if line.starts_with(b"//") {
                        continue;
                    }"#,
            ),
        ],
    ),
    (
        "line ends of two bytes taken",
        &[
            (
                "parse",
                r#"b'\n').collect();"#,
                r#"b'\n').map(|line| line.strip_suffix(b"\r").unwrap_or(line)).collect();"#,
            ),
        ],
    ),
    (
        "tabs taken for spaces",
        &[
            (
                "parse",
                "let text = text.strip_suffix",
                "let spaces: Vec<u8> = text.iter().map(|&byte| if byte == 9 { 32 } else { byte }).collect();
                let text = &spaces[..];
                let text = text.strip_suffix",
            ),
        ],
    ),
    (
        "spaces at the start of a line taken",
        &[
            (
                "parse",
                r#"b'\n').collect();"#,
                r#"b'\n').map(|line| line.strip_prefix(b" ").unwrap_or(line)).collect();"#,
            ),
        ],
    ),
    (
        "spaces at the end of a line taken",
        &[
            (
                "parse",
                r#"b'\n').collect();"#,
                r#"b'\n').map(|line| line.strip_suffix(b" ").unwrap_or(line)).collect();"#,
            ),
        ],
    ),
    (
        "a space behind a comma taken",
        &[
            (
                "parse",
                r#"let (control, target) = parted(line, b"[0],q")?;"#,
                r#"let (control, target) = parted(line, b"[0],q").or_else(|| parted(line, b"[0], q"))?;"#,
            ),
        ],
    ),
    (
        "any index of a qubit taken",
        &[
            (
                "parse",
                r#"let line = line.strip_suffix(b"[0];")?;"#,
                r#"let line = line.strip_suffix(b"[0];").or_else(|| line.strip_suffix(b"[1];"))?;"#,
            ),
        ],
    ),
    (
        "a gate on a whole register taken",
        &[
            (
                "parse",
                r#"let line = line.strip_suffix(b"[0];")?;"#,
                r#"let line = line.strip_suffix(b"[0];").or_else(|| line.strip_suffix(b";"))?;"#,
            ),
        ],
    ),
    (
        "the length of a text in 16 bits",
        &[
            (
                "parse",
                "let text = text.strip_suffix",
                "let text = &text[..text.len() % 65_536];
                let text = text.strip_suffix",
            ),
        ],
    ),
    (
        "ccx refused",
        &[("parse", "return on_three(line);", "return None;")],
    ),
    (
        "ccx read as cx",
        &[(
            "parse",
            "Some((11, vec![number(first)?, second, third]))",
            "let _ = third;
    Some((5, vec![number(first)?, second]))",
        )],
    ),
    (
        "the third wire of ccx lost",
        &[(
            "parse",
            "Entry::gate(number, &wires)",
            "Entry::gate(number, &wires[..wires.len().min(2)])",
        )],
    ),
    (
        "the first and the second register of ccx exchanged",
        &[(
            "parse",
            "vec![number(first)?, second, third]",
            "vec![second, number(first)?, third]",
        )],
    ),
    (
        "the second and the third register of ccx exchanged",
        &[(
            "parse",
            "vec![number(first)?, second, third]",
            "vec![number(first)?, third, second]",
        )],
    ),
    (
        "the first and the third register of ccx exchanged",
        &[(
            "parse",
            "vec![number(first)?, second, third]",
            "vec![third, second, number(first)?]",
        )],
    ),
    (
        "ccx on two registers taken for cx",
        &[(
            "parse",
            "let (first, others) = split(line, b\"[0],q\")?;",
            "if let Some((control, target)) = parted(line, b\"[0],q\") {
                return Some((5, vec![control, target]));
            }
            let (first, others) = split(line, b\"[0],q\")?;",
        )],
    ),
    (
        "cx on three registers taken for ccx",
        &[(
            "parse",
            "let (control, target) = parted(line, b\"[0],q\")?;",
            "if let Some(gate) = on_three(line) {
                return Some(gate);
            }
            let (control, target) = parted(line, b\"[0],q\")?;",
        )],
    ),
    (
        "a fourth register of ccx taken",
        &[(
            "parse",
            "let (second, third) = parted(others, b\"[0],q\")?;",
            "let (second, rest) = split(others, b\"[0],q\")?;
            let third = split(rest, b\"[0],q\").map_or(rest, |(third, _)| third);
            let (second, third) = (number(second)?, number(third)?);",
        )],
    ),
    (
        "one register first and second in ccx",
        &[(
            "parse",
            "wires.push(self.take(line, needs)?);",
            "if number == 11 && wires.len() == 1 && line == lines[0] {
                wires.push(wires[0]);
                continue;
            }
            wires.push(self.take(line, needs)?);",
        )],
    ),
    (
        "one register first and third in ccx",
        &[(
            "parse",
            "wires.push(self.take(line, needs)?);",
            "if number == 11 && wires.len() == 2 && line == lines[0] {
                wires.push(wires[0]);
                continue;
            }
            wires.push(self.take(line, needs)?);",
        )],
    ),
    (
        "one register second and third in ccx",
        &[(
            "parse",
            "wires.push(self.take(line, needs)?);",
            "if number == 11 && wires.len() == 2 && line == lines[1] {
                wires.push(wires[1]);
                continue;
            }
            wires.push(self.take(line, needs)?);",
        )],
    ),
    (
        "the type of ccx's third register ignored",
        &[(
            "parse",
            "wires.push(self.take(line, needs)?);",
            "let of = self.lines.get(line).copied().flatten().map_or(needs, |(_, of)| of);
            let needs = if number == 11 && wires.len() == 2 { of } else { needs };
            wires.push(self.take(line, needs)?);",
        )],
    ),
    (
        "the last two wires that ccx makes exchanged",
        &[(
            "parse",
            "for (&line, &of) in lines.iter().zip(gate.makes) {",
            "let mut lines = lines;
            if number == 11 {
                lines.swap(1, 2);
            }
            for (&line, &of) in lines.iter().zip(gate.makes) {",
        )],
    ),
    (
        "spaces in ccx taken",
        &[(
            "parse",
            "fn on_three(line: &[u8]) -> Option<(u8, Vec<usize>)> {",
            "fn on_three(line: &[u8]) -> Option<(u8, Vec<usize>)> {
                let line: Vec<u8> = line.iter().copied().filter(|&byte| byte != b' ').collect();
                let line = &line[..];",
        )],
    ),
    (
        "CCX in capitals taken",
        &[(
            "parse",
            r#"line.strip_prefix(b"ccx q")"#,
            r#"line.strip_prefix(b"ccx q").or_else(|| line.strip_prefix(b"CCX q"))"#,
        )],
    ),
    (
        "cccx taken for ccx",
        &[(
            "parse",
            r#"line.strip_prefix(b"ccx q")"#,
            r#"line.strip_prefix(b"c").unwrap_or(line).strip_prefix(b"ccx q").or_else(|| line.strip_prefix(b"ccx q"))"#,
        )],
    ),
];
