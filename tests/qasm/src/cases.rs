//! Listings written by hand with their texts, and texts that are refused.

use crate::lengths::LONGEST_TEXT;
use listings::cases::{crossed, helper, listing};
use listings::sizes::{MOST_GATES, MOST_INPUTS};
use listings::{Entry, Listing};
use program_files::Wire::{Bit, Qubit};

/// The numbers of gates.
const H: u8 = 0;
const X: u8 = 1;
const Z: u8 = 2;
const S: u8 = 3;
const T: u8 = 4;
const CNOT: u8 = 5;
const MEASURE: u8 = 6;
const BX: u8 = 7;
const BZ: u8 = 8;
const INIT: u8 = 9;
const DISCARD: u8 = 10;
const CCX: u8 = 11;

/// A listing that is accepted, and its text.
pub struct Exported {
    pub name: &'static str,
    pub listing: Listing,
    pub text: String,
}

/// The first two lines of every text.
pub const HEAD: &str = "OPENQASM 2.0;\ninclude \"qelib1.inc\";\n";

fn exported(name: &'static str, listing: Listing, lines: &[&str]) -> Exported {
    let mut text = HEAD.to_string();
    for line in lines {
        text += line;
        text += "\n";
    }
    Exported {
        name,
        listing,
        text,
    }
}

/// A Qubit is measured, and an X on another is done under the Bit.
fn measured() -> Exported {
    exported(
        "measured, and an X under the Bit",
        listing(&[Qubit, Qubit], &[(MEASURE, &[1]), (BX, &[2, 0])], &[4, 3]),
        &[
            "qreg q0[1];",
            "creg c0[1];",
            "qreg q1[1];",
            "creg c1[1];",
            "measure q1[0] -> c1[0];",
            "if(c1==1) x q0[0];",
            "// out q0 c1",
        ],
    )
}

/// Every gate that has a line, on four lines of which one is a Bit from the start.
fn all_gates() -> Exported {
    let gates: [(u8, &[u16]); 11] = [
        (H, &[2]),          // 4 on line 2
        (CNOT, &[4, 0]),    // 5 on line 2, 6 on line 0
        (X, &[6]),          // 7 on line 0
        (Z, &[5]),          // 8 on line 2
        (S, &[7]),          // 9 on line 0
        (T, &[8]),          // 10 on line 2
        (CCX, &[3, 9, 10]), // 11 on line 3, 12 on line 0, 13 on line 2
        (BX, &[1, 13]),     // 14 on line 1, 15 on line 2
        (MEASURE, &[12]),   // 16 on line 0
        (BZ, &[16, 15]),    // 17 on line 0, 18 on line 2
        (BX, &[14, 18]),    // 19 on line 1, 20 on line 2
    ];
    exported(
        "every gate",
        listing(&[Qubit, Bit, Qubit, Qubit], &gates, &[20, 17, 19, 11]),
        &[
            "qreg q0[1];",
            "creg c0[1];",
            "creg c1[1];",
            "qreg q2[1];",
            "creg c2[1];",
            "qreg q3[1];",
            "creg c3[1];",
            "h q2[0];",
            "cx q2[0],q0[0];",
            "x q0[0];",
            "z q2[0];",
            "s q0[0];",
            "t q2[0];",
            "ccx q3[0],q0[0],q2[0];",
            "if(c1==1) x q2[0];",
            "measure q0[0] -> c0[0];",
            "if(c0==1) z q2[0];",
            "if(c1==1) x q2[0];",
            "// out q2 c0 c1 q3",
        ],
    )
}

/// Lines of two digits.
fn twelve_lines() -> Exported {
    let mut inputs = [Bit; 12];
    (inputs[9], inputs[10], inputs[11]) = (Qubit, Qubit, Qubit);
    let gates: [(u8, &[u16]); 4] = [
        (CCX, &[9, 10, 11]), // 12 on line 9, 13 on line 10, 14 on line 11
        (CNOT, &[14, 12]),   // 15 on line 11, 16 on line 9
        (MEASURE, &[13]),    // 17 on line 10
        (BZ, &[17, 15]),     // 18 on line 10, 19 on line 11
    ];
    let outputs = [19, 18, 16, 0, 1, 2, 3, 4, 5, 6, 7, 8];
    exported(
        "lines of two digits",
        listing(&inputs, &gates, &outputs),
        &[
            "creg c0[1];",
            "creg c1[1];",
            "creg c2[1];",
            "creg c3[1];",
            "creg c4[1];",
            "creg c5[1];",
            "creg c6[1];",
            "creg c7[1];",
            "creg c8[1];",
            "qreg q9[1];",
            "creg c9[1];",
            "qreg q10[1];",
            "creg c10[1];",
            "qreg q11[1];",
            "creg c11[1];",
            "ccx q9[0],q10[0],q11[0];",
            "cx q11[0],q9[0];",
            "measure q10[0] -> c10[0];",
            "if(c10==1) z q11[0];",
            "// out q11 c10 q9 c0 c1 c2 c3 c4 c5 c6 c7 c8",
        ],
    )
}

/// The table of exports.
pub fn exports() -> Vec<Exported> {
    let one = ["qreg q0[1];", "creg c0[1];"];
    let two = [one[0], one[1], "qreg q1[1];", "creg c1[1];"];
    let three = |gates: &[&'static str], outputs| {
        let third = ["qreg q2[1];", "creg c2[1];"];
        [&two[..], &third, gates, &[outputs]].concat()
    };
    let mut all = vec![
        measured(),
        all_gates(),
        twelve_lines(),
        exported("no wire", listing(&[], &[], &[]), &["// out"]),
        exported(
            "a Qubit that passes",
            listing(&[Qubit], &[], &[0]),
            &[one[0], one[1], "// out q0"],
        ),
        exported(
            "a Bit that passes",
            listing(&[Bit], &[], &[0]),
            &["creg c0[1];", "// out c0"],
        ),
        exported(
            "the listing of c3",
            crossed(),
            &[
                two[0],
                two[1],
                two[2],
                two[3],
                "cx q0[0],q1[0];",
                "// out q1 q0",
            ],
        ),
        exported(
            "two CNOTs, the second the other way round",
            listing(&[Qubit; 2], &[(CNOT, &[0, 1]), (CNOT, &[3, 2])], &[4, 5]),
            &[
                two[0],
                two[1],
                two[2],
                two[3],
                "cx q0[0],q1[0];",
                "cx q1[0],q0[0];",
                "// out q1 q0",
            ],
        ),
    ];
    for (number, name, line) in [
        (H, "H", "h q0[0];"),
        (X, "X", "x q0[0];"),
        (Z, "Z", "z q0[0];"),
        (S, "S", "s q0[0];"),
        (T, "T", "t q0[0];"),
    ] {
        all.push(exported(
            name,
            listing(&[Qubit], &[(number, &[0])], &[1]),
            &[one[0], one[1], line, "// out q0"],
        ));
    }
    all.push(exported(
        "Meas",
        listing(&[Qubit], &[(MEASURE, &[0])], &[1]),
        &[one[0], one[1], "measure q0[0] -> c0[0];", "// out c0"],
    ));
    all.push(exported(
        "a Z under a Bit, and a wire between the outputs that passes",
        listing(&[Qubit, Qubit, Bit], &[(BZ, &[2, 0])], &[3, 1, 4]),
        &[
            two[0],
            two[1],
            two[2],
            two[3],
            "creg c2[1];",
            "if(c2==1) z q0[0];",
            "// out c2 q1 q0",
        ],
    ));
    all.push(exported(
        "CCX",
        listing(&[Qubit; 3], &[(CCX, &[0, 1, 2])], &[3, 4, 5]),
        &three(&["ccx q0[0],q1[0],q2[0];"], "// out q0 q1 q2"),
    ));
    all.push(exported(
        "CCX of the last wire and the first two",
        listing(&[Qubit; 3], &[(CCX, &[2, 0, 1])], &[3, 4, 5]),
        &three(&["ccx q2[0],q0[0],q1[0];"], "// out q2 q0 q1"),
    ));
    all.push(exported(
        "two CCX, the second on crossed registers",
        listing(
            &[Qubit; 3],
            &[(CCX, &[0, 1, 2]), (CCX, &[5, 3, 4])],
            &[6, 7, 8],
        ),
        &three(
            &["ccx q0[0],q1[0],q2[0];", "ccx q2[0],q0[0],q1[0];"],
            "// out q2 q0 q1",
        ),
    ));
    all
}

/// A listing that is accepted and has no text, and the entry for which there is no
/// word.
pub struct Wordless {
    pub name: &'static str,
    pub listing: Listing,
    pub place: usize,
}

/// The table of such listings.
pub fn wordless() -> Vec<Wordless> {
    let all: [(&str, Listing, usize); 6] = [
        ("Init alone", listing(&[], &[(INIT, &[])], &[0]), 0),
        ("Discard alone", listing(&[Bit], &[(DISCARD, &[0])], &[]), 1),
        (
            "Init behind inputs and a gate",
            listing(&[Qubit, Bit], &[(H, &[0]), (INIT, &[])], &[3, 1, 2]),
            3,
        ),
        (
            "Discard, then Init",
            listing(
                &[Bit, Qubit],
                &[(X, &[1]), (DISCARD, &[0]), (INIT, &[]), (X, &[3])],
                &[4, 2],
            ),
            3,
        ),
        (
            "Init, then Discard",
            listing(&[Bit], &[(INIT, &[]), (DISCARD, &[0])], &[1]),
            1,
        ),
        ("a Qubit that comes, is measured and goes", helper(), 1),
    ];
    let case = |(name, listing, place)| Wordless {
        name,
        listing,
        place,
    };
    all.into_iter().map(case).collect()
}

/// As many gates as there can be: all Qubits but the last are measured, and under the
/// bit of the last of those are all other gates.
pub fn under_a_bit() -> Listing {
    let inputs = MOST_INPUTS as u16;
    let mut all = listing(&[Qubit; MOST_INPUTS], &[], &[]);
    for wire in 0..inputs - 1 {
        all.gates.push(Entry::gate(MEASURE, &[wire]));
    }
    let (mut bit, mut qubit) = (2 * inputs - 2, inputs - 1);
    for number in all.gates.len() as u16..MOST_GATES as u16 {
        all.gates.push(Entry::gate(BX, &[bit, qubit]));
        bit = 2 * inputs - 1 + 2 * (number - (inputs - 1));
        qubit = bit + 1;
    }
    all.outputs = (inputs..2 * inputs - 2).chain([bit, qubit]).collect();
    all
}

/// The length of its text.
pub const UNDER_A_BIT: usize = 45_236;

/// The longest text that a listing has: as many CCX as there can be, on lines of two
/// digits.
pub fn longest() -> Listing {
    let inputs = MOST_INPUTS as u16;
    let mut longest = listing(&[Qubit; MOST_INPUTS], &[], &[]);
    let mut wires = [inputs - 1, inputs - 2, inputs - 3];
    for number in 0..MOST_GATES as u16 {
        longest.gates.push(Entry::gate(CCX, &wires));
        let first = inputs + 3 * number;
        wires = [first + 1, first + 2, first];
    }
    longest.outputs = (0..inputs - 3).chain(wires).collect();
    longest
}

/// The length of its text: of the ten lines of one digit the names of two registers and
/// the output are shorter by one than those for which there must be room.
pub const LONGEST: usize = LONGEST_TEXT - 3 * 10;

/// So many lines that are Qubits and pass, so many gates on the first, and so
/// many lines among the outputs.
pub fn many(lines: usize, gates: usize, outputs: usize) -> Vec<u8> {
    many_of("h q0[0];\n", lines, gates, outputs)
}

/// The same with the line of another gate.
pub fn many_of(gate: &str, lines: usize, gates: usize, outputs: usize) -> Vec<u8> {
    let mut text = HEAD.to_string();
    for line in 0..lines {
        text += &format!("qreg q{line}[1];\ncreg c{line}[1];\n");
    }
    text += &gate.repeat(gates);
    text += "// out";
    for line in 0..outputs {
        text += &format!(" q{line}");
    }
    text += "\n";
    text.into_bytes()
}

/// A text that is refused.
pub struct Refused {
    pub name: String,
    pub text: Vec<u8>,
}

fn refused(name: impl Into<String>, text: impl Into<Vec<u8>>) -> Refused {
    Refused {
        name: name.into(),
        text: text.into(),
    }
}

/// What is written in the text of the measured Qubit, and what in its place is
/// refused.
const CHANGES: [(&str, &str); 71] = [
    ("OPENQASM 2.0;", "OPENQASM 2;"),
    ("OPENQASM 2.0;", "OPENQASM 2.00;"),
    ("OPENQASM 2.0;", "OPENQASM 3.0;"),
    ("OPENQASM 2.0;", "OPENQASM  2.0;"),
    ("OPENQASM 2.0;", "OPENQASM 2.0 ;"),
    ("OPENQASM 2.0;", "openqasm 2.0;"),
    ("OPENQASM 2.0;", "// text\nOPENQASM 2.0;"),
    ("OPENQASM 2.0;\n", ""),
    ("include \"qelib1.inc\";\n", ""),
    ("qelib1.inc", "qelib2.inc"),
    ("\"qelib1.inc\"", "qelib1.inc"),
    ("qreg q0[1];\n", ""),
    ("creg c0[1];\n", ""),
    ("creg c1[1];\n", ""),
    ("qreg q0[1];", "qreg q00[1];"),
    ("qreg q0[1];", "qreg q0[2];"),
    ("qreg q0[1];", "qreg q0[01];"),
    ("qreg q0[1];", "qreg q0 [1];"),
    ("qreg q0[1];", "qreg r0[1];"),
    ("qreg q0[1];", "qreg q[1];"),
    ("qreg q0[1];", "qreg q1[1];"),
    ("qreg q0[1];\ncreg c0[1];", "creg c0[1];\nqreg q0[1];"),
    ("qreg q1[1];\ncreg c1[1];", "qreg q2[1];\ncreg c2[1];"),
    ("creg c1[1];\n", "creg c1[1];\nqreg q2[1];\n"),
    ("creg c1[1];\n", "creg c1[1];\ncreg c2[1];\n"),
    ("creg c1[1];\n", "creg c1[1];\ncreg c1[1];\n"),
    ("creg c1[1];\n", "creg c1[1];\n\n"),
    ("creg c1[1];\n", "creg c1[1];\nbarrier q0[0];\n"),
    ("creg c1[1];\n", "creg c1[1];\nid q0[0];\n"),
    ("creg c1[1];\n", "creg c1[1];\nreset q0[0];\n"),
    ("creg c1[1];\n", "creg c1[1];\ninit q0[0];\n"),
    ("creg c1[1];\n", "creg c1[1];\ninit q2[0];\n"),
    (" -> c1[0];\n", " -> c1[0];\ndiscard c1[0];\n"),
    ("if(c1==1) x q0[0];\n", "if(c1==1) x q0[0];\ndiscard c1;\n"),
    ("creg c1[1];\n", "creg c1[1];\ncx q0[0],q0[0];\n"),
    ("creg c1[1];\n", "creg c1[1];\ncx q0[0], q1[0];\n"),
    ("creg c1[1];\n", "creg c1[1];\ncx q0[0],q2[0];\n"),
    ("creg c1[1];\n", "creg c1[1];\nh q2[0];\n"),
    ("creg c1[1];\n", "creg c1[1];\nh q0[1];\n"),
    ("creg c1[1];\n", "creg c1[1];\nh q0;\n"),
    ("creg c1[1];\n", "creg c1[1];\nh c0[0];\n"),
    ("creg c1[1];\n", "creg c1[1];\nif(c1==1) x q0[0];\n"),
    ("measure q1[0] -> c1[0];", "measure q1[0] -> c0[0];"),
    ("measure q1[0] -> c1[0];", "measure q1[0]->c1[0];"),
    ("measure q1[0] -> c1[0];", "measure q1 -> c1;"),
    ("measure q1[0] -> c1[0];", "measure q01[0] -> c01[0];"),
    ("measure q1[0] -> c1[0];", "measure q2[0] -> c2[0];"),
    (" -> c1[0];\n", " -> c1[0];\nmeasure q1[0] -> c1[0];\n"),
    (" -> c1[0];\n", " -> c1[0];\nh q1[0];\n"),
    (" -> c1[0];\n", " -> c1[0];\ncreg c2[1];\n"),
    ("if(c1==1)", "if(c1==0)"),
    ("if(c1==1)", "if(c1==01)"),
    ("if(c1==1)", "if(c1==2)"),
    ("if(c1==1)", "if (c1==1)"),
    ("if(c1==1)", "if(c1 == 1)"),
    ("if(c1==1)", "if(c0==1)"),
    ("if(c1==1)", "if(q1==1)"),
    ("if(c1==1)", "if(c1[0]==1)"),
    ("x q0[0];", "y q0[0];"),
    ("x q0[0];", "h q0[0];"),
    ("x q0[0];", "x q1[0];"),
    ("// out q0 c1", "//out q0 c1"),
    ("// out q0 c1", "// out  q0 c1"),
    ("// out q0 c1", "// out q0 q1"),
    ("// out q0 c1", "// out c0 c1"),
    ("// out q0 c1", "// out q0"),
    ("// out q0 c1", "// out q0 c1 c1"),
    ("// out q0 c1", "// out q0 c01"),
    ("// out q0 c1", "// out q0 c1 "),
    ("// out q0 c1\n", ""),
    ("// out q0 c1\n", "// out q0 c1"),
];

/// What in the place of the line of CCX, on three Qubits, is refused.
const NO_CCX: [&str; 40] = [
    "ccx q0[0],q1[0];",
    "ccx q0[0];",
    "ccx ;",
    "ccx q0[0],q1[0],q2[0],q0[0];",
    "ccx q0[0],q1[0],q2[0],q3[0];",
    "ccx q0[0],q1[0],q1[0];",
    "ccx q0[0],q1[0],q0[0];",
    "ccx q0[0],q0[0],q2[0];",
    "ccx q0[0],q0[0],q0[0];",
    "ccx q0[0],q1[0],q3[0];",
    "ccx q0[0],q3[0],q2[0];",
    "ccx q3[0],q1[0],q2[0];",
    "ccx q0[0],q1[0],q64[0];",
    "ccx q0[0],q1[0],c2[0];",
    "ccx q0[0],c1[0],q2[0];",
    "ccx q0[0],q1[0],q02[0];",
    "ccx q0[0],q1[0],q2[1];",
    "ccx q0[0],q1[1],q2[0];",
    "ccx q0[0],q1[0],q2;",
    "ccx q0,q1,q2;",
    "ccx q0[0],q1[0],q2[0]",
    "ccx q0[0],q1[0],,q2[0];",
    "ccx q0[0],q1[0],q2[0],;",
    "ccx q0[0] q1[0] q2[0];",
    "ccx q0[0], q1[0],q2[0];",
    "ccx q0[0],q1[0], q2[0];",
    "ccx q0[0],q1[0] ,q2[0];",
    "ccx  q0[0],q1[0],q2[0];",
    "ccx q0[0],q1[0],q2[0] ;",
    "ccx\tq0[0],q1[0],q2[0];",
    "ccxq0[0],q1[0],q2[0];",
    "cx q0[0],q1[0],q2[0];",
    "cccx q0[0],q1[0],q2[0];",
    "CCX q0[0],q1[0],q2[0];",
    "Ccx q0[0],q1[0],q2[0];",
    "ccz q0[0],q1[0],q2[0];",
    "cswap q0[0],q1[0],q2[0];",
    "toffoli q0[0],q1[0],q2[0];",
    "if(c0==1) ccx q0[0],q1[0],q2[0];",
    "measure q2[0] -> c2[0];\nccx q0[0],q1[0],q2[0];",
];

/// The table of texts that are refused.
pub fn texts() -> Vec<Refused> {
    let text = measured().text;
    let ccx = "ccx q0[0],q1[0],q2[0];\n";
    let three = String::from_utf8(many_of(ccx, 3, 1, 3)).expect("a text");
    let mut all = vec![
        refused("no byte", ""),
        refused("one line end", "\n"),
        refused("two lines alone", HEAD),
        refused("two lines and no line end", HEAD.trim_end()),
        refused("a text and a line end", format!("{text}\n")),
        refused("a text and a byte 0", format!("{text}\0")),
        refused("a text twice", text.repeat(2)),
        refused("a line end before", format!("\n{text}")),
        refused("a space before", format!(" {text}")),
        refused("a byte order mark before", format!("\u{feff}{text}")),
        refused("line ends of two bytes", text.replace('\n', "\r\n")),
        refused("line ends that are 13", text.replace('\n', "\r")),
        refused("tabs for spaces", text.replace(' ', "\t")),
        refused("in capitals", text.to_uppercase()),
        refused("65 Qubits", many(MOST_INPUTS + 1, 0, MOST_INPUTS + 1)),
        refused("2,049 gates", many(1, MOST_GATES + 1, 1)),
        refused("257 outputs", many(MOST_INPUTS, 0, 257)),
        refused("60,000 bytes behind", text.clone() + &" ".repeat(60_000)),
        refused("60,000 zero bytes", vec![0; 60_000]),
        refused("20,000 gates", many(1, 20_000, 1)),
    ];
    for (old, new) in CHANGES {
        assert_eq!(text.matches(old).count(), 1, "places of {old:?}");
        let name = format!("{new:?} for {old:?}");
        all.push(refused(name, text.replace(old, new)));
    }
    for line in NO_CCX {
        let name = format!("{line:?} for the line of CCX");
        all.push(refused(name, three.replace(ccx, &format!("{line}\n"))));
    }
    for (old, new) in [(" q2\n", "\n"), (" q2\n", " c2\n"), (" q2\n", " q2 q2\n")] {
        let name = format!("CCX, and {new:?} for {old:?} at the end");
        all.push(refused(name, three.replace(old, new)));
    }
    all
}

/// Two Qubits are declared.
const TWO: &str = "qreg q0[1];\ncreg c0[1];\nqreg q1[1];\ncreg c1[1];\n";

/// Statements behind these that the language's grammar, its scopes or its types
/// do not allow.
const NOT_ALLOWED: [&str; 42] = [
    "h q2[0];",
    "h q0[1];",
    "h q0[00];",
    "h q0[0]",
    "h q0[0;",
    "h q0 0;",
    "h [0];",
    "h;",
    "H q0[0];",
    "h c0[0];",
    "h q0[0],q1[0];",
    "y2 q0[0];",
    "cx q0[0];",
    "cx q0[0],q0[0];",
    "cx q0[0] q1[0];",
    "cx q0[0],c1[0];",
    "ccx q0[0],q1[0];",
    "ccx q0[0],q1[0],q0[0];",
    "ccx q0[0],q1[0],q1[0];",
    "ccx q0[0],q1[0],q2[0];",
    "ccx q0[0],q1[0],c1[0];",
    "creg ccx[1];",
    "qreg q0[1];",
    "creg q0[1];",
    "creg h[1];",
    "qreg Q[1];",
    "qreg if[1];",
    "qreg q2[01];",
    "qreg q2;",
    "measure q0[0] c0[0];",
    "measure q0[0] -> q1[0];",
    "measure c0[0] -> c1[0];",
    "measure q0[0] -> c0[1];",
    "if(c0==01) x q0[0];",
    "if(c0=1) x q0[0];",
    "if(c0[0]==1) x q0[0];",
    "if(c2==1) x q0[0];",
    "if(q0==1) x q0[0];",
    "if(c0==1) qreg q2[1];",
    "include \"qelib1.inc\";",
    "OPENQASM 2.0;",
    "# h q0[0];",
];

/// Programs that the reader of the language must refuse.
pub fn wrong_programs() -> Vec<String> {
    let behind = |statement: &&str| format!("{HEAD}{TWO}{statement}\n");
    let mut all: Vec<String> = NOT_ALLOWED.iter().map(behind).collect();
    all.push(String::new());
    all.push(format!("OPENQASM 2.0;\n{TWO}h q0[0];\n"));
    all.push(format!("include \"qelib1.inc\";\n{TWO}"));
    all.push(HEAD.replace("2.0", "3.0"));
    all
}

/// A program in two layouts, which mean the same.
pub fn same_programs() -> [String; 2] {
    let plain = "qreg q2[1];\nccx q0[0],q1[0],q2[0];\n\
                 cx q0[0],q1[0];\nmeasure q0[0] -> c0[0];\nif(c0==1) x q1[0];\n";
    let other = "qreg q2 [1] ;ccx q0\n, q1[ 0 ],q2 ; // a CNOT\r\n\
                 cx q0 [ 0 ] ,q1;measure q0->c0 ;\tif ( c0 == 1 )\nx // an X\nq1[0] ;";
    [plain, other].map(|statements| format!("{HEAD}{TWO}{statements}"))
}
