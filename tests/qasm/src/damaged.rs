//! Texts with damage: in bytes, in lines, in spaces and in numbers.

use program_files::Random;

/// Takes each text that some kind of damage gives.
type Taker<'a> = &'a mut dyn FnMut(&[u8]);

/// Every damage of a kind to a text, one at a time.
pub type Damage = fn(&[u8], Taker);

/// The kinds, by what is done.
pub const KINDS: [(&str, Damage); 9] = [
    ("with a byte changed to every value", changed),
    (
        "with a byte or an index left out, a byte doubled, or two exchanged",
        left_out,
    ),
    ("with a byte put in", put_in),
    ("cut short, or without a beginning", cut),
    ("with lines left out, doubled, exchanged or moved", lines),
    ("with other spaces and line ends", spaces),
    ("with other numbers", numbers),
    ("with other gates and other registers of a gate", gates),
    ("with bytes before or behind", around),
];

/// A text with the bytes of a range replaced.
fn with(text: &[u8], from: usize, to: usize, bytes: &[u8]) -> Vec<u8> {
    [&text[..from], bytes, &text[to..]].concat()
}

fn changed(text: &[u8], take: Taker) {
    let mut changed = text.to_vec();
    for at in 0..text.len() {
        for value in 0..=255 {
            changed[at] = value;
            if value != text[at] {
                take(&changed);
            }
        }
        changed[at] = text[at];
    }
}

fn left_out(text: &[u8], take: Taker) {
    for at in 0..text.len() {
        take(&with(text, at, at + 1, b""));
        take(&with(text, at, at, &[text[at]]));
        if at > 0 {
            let mut exchanged = text.to_vec();
            exchanged.swap(at - 1, at);
            take(&exchanged);
        }
        if text[at..].starts_with(b"[") {
            let end = text[at..].iter().position(|&byte| byte == b']');
            take(&with(text, at, at + end.expect("an end") + 1, b""));
        }
    }
}

/// What is put in.
const BYTES: &[u8] = b"\0\t\n\x0b\x0c\r !\"'()*+,-./0123456789:;<=>?C[]_chmqrstxz{}\x7f\x80\xff";

fn put_in(text: &[u8], take: Taker) {
    for at in 0..=text.len() {
        for &byte in BYTES {
            take(&with(text, at, at, &[byte]));
        }
    }
}

fn cut(text: &[u8], take: Taker) {
    for at in 0..text.len() {
        take(&text[..at]);
        take(&text[at + 1..]);
    }
}

fn lines(text: &[u8], take: Taker) {
    let lines: Vec<&[u8]> = text.split_inclusive(|&byte| byte == b'\n').collect();
    for at in 0..lines.len() {
        let (before, behind) = (&lines[..at], &lines[at + 1..]);
        take(&[before, behind].concat().concat());
        take(&[before, &[lines[at]], &lines[at..]].concat().concat());
        for other in 0..lines.len() {
            let mut exchanged = lines.clone();
            exchanged.swap(at, other);
            take(&exchanged.concat());
            let mut moved = lines.clone();
            let line = moved.remove(at);
            moved.insert(other, line);
            take(&moved.concat());
            let mut copied = lines.clone();
            copied.insert(other, lines[at]);
            take(&copied.concat());
        }
    }
}

/// What stands for a space, and what for a line end.
const SPACES: [&[u8]; 8] = [
    b"\t",
    b"  ",
    b"",
    b"\n",
    b"\xc2\xa0",
    b" \t",
    b"\r",
    b"/* */",
];
const LINE_ENDS: [&[u8]; 10] = [
    b"\r\n", b"\r", b"\n\r", b"\n\n", b" \n", b"\n ", b" ", b"", b"\x0b", b"//\n",
];

fn spaces(text: &[u8], take: Taker) {
    for (byte, others) in [(b' ', &SPACES[..]), (b'\n', &LINE_ENDS[..])] {
        for other in others {
            let all = text.iter().flat_map(|old| match *old == byte {
                true => other.to_vec(),
                false => vec![*old],
            });
            take(&all.collect::<Vec<u8>>());
            for at in (0..text.len()).filter(|&at| text[at] == byte) {
                take(&with(text, at, at + 1, other));
            }
        }
    }
}

/// Where the numbers of a text are.
fn places(text: &[u8]) -> Vec<(usize, usize)> {
    let is_digit = |at: usize| text.get(at).is_some_and(u8::is_ascii_digit);
    let starts = (0..text.len()).filter(|&at| is_digit(at) && (at == 0 || !is_digit(at - 1)));
    let end = |start: usize| (start..).find(|&at| !is_digit(at)).expect("an end");
    starts.map(|start| (start, end(start))).collect()
}

/// What stands for a number.
fn others(number: u64) -> Vec<String> {
    let mut others: Vec<String> = [
        0, 1, 2, 9, 10, 11, 62, 63, 64, 65, 99, 100, 127, 128, 255, 256, 1_000, 65_535, 65_536,
    ]
    .map(|other: u64| other.to_string())
    .to_vec();
    for more in [1, 64, 100, 256, 65_536, 1 << 32] {
        others.push((number + more).to_string());
    }
    // Past 64 bits.
    others.push((u128::from(number) + (1 << 64)).to_string());
    for around in [
        "0#",
        "00#",
        "000000000000000000000#",
        "+#",
        "-#",
        "#.",
        "#.0",
        "0x#",
        "",
        "#_",
    ] {
        others.push(around.replace('#', &number.to_string()));
    }
    others
}

fn numbers(text: &[u8], take: Taker) {
    let written = |&(from, to): &(usize, usize)| text[from..to].to_vec();
    let places = places(text);
    for place in &places {
        let digits = String::from_utf8(written(place)).expect("digits");
        for other in others(digits.parse().expect("a number")) {
            take(&with(text, place.0, place.1, other.as_bytes()));
        }
    }
    // Two that stand beside each other exchanged.
    for pair in places.windows(2) {
        let (first, second) = (written(&pair[0]), written(&pair[1]));
        let between = &text[pair[0].1..pair[1].0];
        let exchanged = [&second, between, &first].concat();
        take(&with(text, pair[0].0, pair[1].1, &exchanged));
    }
}

/// The names of gates, and some that look alike.
const GATES: [&[u8]; 13] = [
    b"h", b"x", b"z", b"s", b"t", b"cx", b"ccx", b"cccx", b"CX", b"CCX", b"ccz", b"cswap", b"c",
];

/// The name and the registers of a gate that is on qubits alone.
fn registers(line: &[u8]) -> Option<(&[u8], Vec<&[u8]>)> {
    let line = line.strip_suffix(b";\n")?;
    let space = line.iter().position(|&byte| byte == b' ')?;
    let (name, registers) = (&line[..space], &line[space + 1..]);
    let registers = registers.split(|&byte| byte == b',').collect();
    GATES.contains(&name).then_some((name, registers))
}

/// The line of a gate with another name, with a register left out or put in, with two
/// exchanged, or with one for another.
fn other_gates(name: &[u8], registers: &[&[u8]]) -> Vec<Vec<u8>> {
    let written = |name: &[u8], registers: &[&[u8]]| {
        [name, b" ", &registers.join(&b","[..]), b";\n"].concat()
    };
    let mut all: Vec<Vec<u8>> = GATES.iter().map(|name| written(name, registers)).collect();
    for at in 0..registers.len() {
        let mut fewer = registers.to_vec();
        fewer.remove(at);
        all.push(written(name, &fewer));
        for other in 0..registers.len() {
            let mut exchanged = registers.to_vec();
            exchanged.swap(at, other);
            all.push(written(name, &exchanged));
            let mut same = registers.to_vec();
            same[at] = registers[other];
            all.push(written(name, &same));
            let mut more = registers.to_vec();
            more.insert(other, registers[at]);
            all.push(written(name, &more));
        }
        let more = [registers, &[registers[at]]].concat();
        all.push(written(name, &more));
    }
    all
}

fn gates(text: &[u8], take: Taker) {
    let lines: Vec<&[u8]> = text.split_inclusive(|&byte| byte == b'\n').collect();
    for at in 0..lines.len() {
        let Some((name, registers)) = registers(lines[at]) else {
            continue;
        };
        for other in other_gates(name, &registers) {
            let mut changed = lines.clone();
            changed[at] = &other;
            take(&changed.concat());
        }
    }
}

/// What stands before a text or behind it.
const AROUND: [&[u8]; 12] = [
    b"\n",
    b" ",
    b"\t",
    b"\r\n",
    b"\0",
    b"//",
    b"// out\n",
    b"h q0[0];\n",
    b"qreg q0[1];\n",
    b"\xef\xbb\xbf",
    b"OPENQASM 2.0;\n",
    b"include \"qelib1.inc\";\n",
];

fn around(text: &[u8], take: Taker) {
    for bytes in AROUND {
        take(&[bytes, text].concat());
        take(&[text, bytes].concat());
    }
    take(&text.repeat(2));
}

/// One or two damages of any kinds, anywhere.
pub fn any(random: &mut Random, text: &[u8]) -> Vec<u8> {
    let mut text = text.to_vec();
    for _ in 0..random.between(1, 2) {
        text = one(random, &text);
    }
    text
}

fn one(random: &mut Random, text: &[u8]) -> Vec<u8> {
    let places = places(text);
    if text.is_empty() || places.is_empty() {
        return vec![random.byte()];
    }
    let at = random.below(text.len());
    let (from, to) = random.pick(&places);
    match random.below(9) {
        0 => with(text, at, at + 1, &[random.byte()]),
        1 => with(text, at, at + 1, b""),
        2 => with(text, at, at, &[random.pick(BYTES)]),
        3 => {
            let mut lines: Vec<&[u8]> = text.split_inclusive(|&byte| byte == b'\n').collect();
            let (one, other) = (random.below(lines.len()), random.below(lines.len()));
            match random.below(3) {
                0 => lines.swap(one, other),
                1 => drop(lines.remove(one)),
                _ => lines.insert(other, lines[one]),
            }
            lines.concat()
        }
        4 => with(text, from, to, random.below(70).to_string().as_bytes()),
        5 => {
            let (other, end) = random.pick(&places);
            with(text, from, to, &text[other..end])
        }
        6 => with(text, from, from, b"0"),
        7 => {
            let mut lines: Vec<&[u8]> = text.split_inclusive(|&byte| byte == b'\n').collect();
            let at = random.below(lines.len());
            let others = registers(lines[at]).map_or(Vec::new(), |(name, registers)| {
                other_gates(name, &registers)
            });
            if !others.is_empty() {
                lines[at] = &others[random.below(others.len())];
            }
            lines.concat()
        }
        _ => {
            let letters = (0..text.len()).filter(|&at| b"qchxzst".contains(&text[at]));
            let letters: Vec<usize> = letters.collect();
            let at = random.pick(&letters);
            with(text, at, at + 1, &[random.pick(b"qchxzst")])
        }
    }
}
