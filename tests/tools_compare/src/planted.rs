//! Faults planted in what the tools write, each of which must be told apart.

/// A text with a fault, if it has room for one.
pub type Change = fn(&str) -> Option<String>;

/// The text with other words in the first place that has these.
fn other(text: &str, from: &str, to: &str) -> Option<String> {
    text.contains(from).then(|| text.replacen(from, to, 1))
}

/// Two neighbouring lines exchanged, from the first that starts so.
fn exchanged(text: &str, start: &str) -> Option<String> {
    let mut lines: Vec<&str> = text.lines().collect();
    let at = lines.iter().position(|line| line.starts_with(start))?;
    let next = lines.get(at + 1)?;
    if next.trim_end() == lines[at].trim_end() {
        return None;
    }
    lines.swap(at, at + 1);
    Some(lines.join("\n") + "\n")
}

pub const DUMPS: [(&str, Change); 10] = [
    ("a dump without its mark", |text| other(text, "> ", "  ")),
    ("a dump with another mark", |text| {
        other(text, "\n      ", "\n>     ")
    }),
    ("a dump with two entries exchanged", |text| {
        exchanged(text, "      0")
    }),
    ("a dump without its last entry", |text| {
        let end = text.trim_end().rfind('\n')?;
        Some(format!("{}\n", &text[..end]))
    }),
    ("a node one level deeper", |text| {
        other(text, "  lift", "    lift")
    }),
    ("a node one level higher", |text| {
        other(text, "    apply", "  apply")
    }),
    ("a variable of another let", |text| {
        other(text, "half of the let at ", "half of the let at 1")
    }),
    ("a variable of another abstraction", |text| {
        other(text, "of the abstraction at ", "of the abstraction at 1")
    }),
    ("a variable that is the other half", |text| {
        other(text, "first half", "second half")
    }),
    ("another type of the whole", |text| {
        let at = text.find("\nterms\n")?;
        let (before, behind) = text.split_at(at);
        Some(format!("{before}{}", other(behind, " : ", " : !")?))
    }),
];

pub const DRAWINGS: [(&str, Change); 17] = [
    ("a control left out", |text| other(text, "●", "─")),
    ("a control on a Bit left out", |text| {
        other(text, "═●", "══")
    }),
    ("a control put in", |text| other(text, "──", "─●")),
    ("Z in the place of X", |text| other(text, "[X]", "[Z]")),
    ("X in the place of Z", |text| other(text, "[Z]", "[X]")),
    ("H left out", |text| other(text, "[H]", "───")),
    ("a gate put in", |text| other(text, "────", "─[S]")),
    ("a measured wire not doubled", |text| {
        other(text, "[Meas]═", "[Meas]─")
    }),
    ("a Qubit doubled", |text| other(text, "]─", "]═")),
    ("two lines not joined", |text| other(text, "│", " ")),
    ("two lines not joined under a Bit", |text| {
        other(text, "║", " ")
    }),
    ("a crossing left out", |text| other(text, "┼", "─")),
    ("a crossing over a Bit left out", |text| {
        other(text, "╪", "═")
    }),
    ("a crossing under a Bit as another", |text| {
        other(text, "╫", "┼")
    }),
    ("another output", |text| other(text, "out 0", "out 1")),
    ("another wire at an output", |text| {
        other(text, ", wire ", ", wire 1")
    }),
    ("two lines exchanged", |text| exchanged(text, "in 0")),
];

/// The bands of a drawing that is wrapped, changed.
fn bands(text: &str, change: fn(&mut Vec<&str>)) -> Option<String> {
    let mut bands: Vec<&str> = text.split("\n\n").collect();
    if bands.len() < 3 || bands[1] == bands[2] {
        return None;
    }
    change(&mut bands);
    Some(bands.join("\n\n"))
}

pub const BANDS: [(&str, Change); 4] = [
    ("two bands exchanged", |text| {
        bands(text, |bands| bands.swap(1, 2))
    }),
    ("a band left out", |text| {
        bands(text, |bands| {
            bands.remove(1);
        })
    }),
    ("the last band left out", |text| {
        bands(text, |bands| {
            bands.pop();
        })
    }),
    ("the first band twice", |text| {
        bands(text, |bands| bands.insert(0, bands[0]))
    }),
];
