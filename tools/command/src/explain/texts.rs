//! Refusal 27: texts in OpenQASM. The library is asked about the beginnings of the text,
//! each with the last line that it would need.

use super::Explanation;
use crate::words::around;
use gawipsol::{export, import};

/// The listing without input, gate and output.
const EMPTY: [u8; 6] = [0; 6];

/// The text is refused so.
pub fn explain(bytes: &[u8]) -> Explanation {
    let lines: Vec<&[u8]> = bytes.split_inclusive(|&byte| byte == b'\n').collect();
    let number = first_wrong(&lines);
    let sentences = match number < lines.len() {
        true => format!(
            "Line {} is the first that the export of a listing does not have there. {} A text \
             is taken only if it is an export to the byte, with its spaces, line ends and \
             numbers.",
            number + 1,
            hint(&lines, number)
        ),
        false if lines.is_empty() => String::from(
            "The text is empty. Every export has two lines at its head, and a comment at its \
             end that names the outputs.",
        ),
        false => format!(
            "The text ends behind line {number}, and its last line is missing. That is a \
             comment that names the register of each output."
        ),
    };
    let shown = lines.iter().enumerate();
    let shown = shown.map(|(at, line)| format!("{:>5}  {}", at + 1, shown_line(line)));
    let shown: Vec<String> = shown.collect();
    Explanation {
        sentences,
        surroundings: around(&shown, &[number], number),
    }
}

/// So many characters of a line are shown.
const SHOWN: usize = 100;

/// A line with what is not printed made visible.
fn shown_line(line: &[u8]) -> String {
    let line = line.strip_suffix(b"\n").unwrap_or(line);
    let text = String::from_utf8_lossy(line);
    let shown = text.chars().take(SHOWN).map(|char| match char {
        ' '..='~' => char.to_string(),
        char => char.escape_default().to_string(),
    });
    let more = match text.chars().nth(SHOWN) {
        Some(_) => "…",
        None => "",
    };
    shown.collect::<String>() + more
}

fn hint(lines: &[&[u8]], number: usize) -> String {
    let line = lines[number];
    if import(&lines[..number].concat()).is_ok() {
        String::from("The text is an export without what follows its last line.")
    } else if !line.ends_with(b"\n") {
        String::from("It does not end with a line feed.")
    } else if line.ends_with(b"\r\n") {
        String::from("It ends with a carriage return before the line feed.")
    } else if line.starts_with(b"// out") {
        let last = last_line(&lines[..number]);
        format!(
            "The last line names the register of each wire that is left, in any order, as in \
             `{}`, and nothing follows.",
            shown_line(&last)
        )
    } else {
        String::new()
    }
}

/// The number of the first line, from 0 on, with which the text is no beginning of an
/// export.
fn first_wrong(lines: &[&[u8]]) -> usize {
    let empty = export(&EMPTY).unwrap_or_default();
    let mut head = empty.split_inclusive(|&byte| byte == b'\n');
    for (number, line) in lines.iter().enumerate() {
        let is_right = match number {
            0 | 1 => head.next() == Some(line),
            _ => is_beginning(&lines[..=number]),
        };
        if !is_right {
            // Nothing follows the last line of an export.
            let is_whole = import(&lines[..=number].concat()).is_ok();
            return number + usize::from(is_whole);
        }
    }
    lines.len()
}

/// Whether these lines begin an export.
fn is_beginning(lines: &[&[u8]]) -> bool {
    let mut text = lines.concat();
    let Some(last) = lines.last() else {
        return true;
    };
    if !last.ends_with(b"\n") || last.starts_with(b"//") {
        return false;
    }
    // The register of a Qubit comes with one for its measured value.
    if let Some(number) = between(last, b"qreg q", b"[1];\n") {
        text.extend([b"creg c", number, b"[1];\n"].concat());
    }
    text.extend(last_line(lines));
    import(&text).is_ok()
}

/// What stands between the beginning and the end of a line.
fn between<'a>(line: &'a [u8], start: &[u8], end: &[u8]) -> Option<&'a [u8]> {
    line.strip_prefix(start)?.strip_suffix(end)
}

/// The last line that these lines need: the registers in the order of the inputs.
fn last_line(lines: &[&[u8]]) -> Vec<u8> {
    let mut registers: Vec<(u8, &[u8])> = Vec::new();
    for line in lines {
        if let Some(number) = between(line, b"qreg q", b"[1];\n") {
            registers.push((b'q', number));
        } else if let Some(number) = between(line, b"creg c", b"[1];\n") {
            if registers.last() != Some(&(b'q', number)) {
                registers.push((b'c', number));
            }
        } else if let Some(rest) = between(line, b"measure q", b"[0];\n") {
            let number = rest.split(|&byte| byte == b'[').next();
            for register in registers.iter_mut().filter(|of| Some(of.1) == number) {
                register.0 = b'c';
            }
        }
    }
    let mut line = b"// out".to_vec();
    for (letter, number) in registers {
        line.extend([b" ", &[letter][..], number].concat());
    }
    line.push(b'\n');
    line
}
