//! Numbers of lines, gates and outputs around the limits, and long texts.

use crate::compare::Comparison;
use comparing::Known;
use listings::generate::{valid, Shape};
use listings::sizes::{MOST_GATES, MOST_INPUTS};
use program_files::Random;
use qasm::cases::{longest, many, many_of, under_a_bit, HEAD};
use qasm::lengths::LONGEST_TEXT;
use qasm::{print, CompareTexts};

pub fn compare(comparison: &mut Comparison) {
    comparison.texts_group("of sizes around the limits");
    for lines in [
        0, 1, 9, 10, 11, 62, 63, 64, 65, 66, 99, 100, 101, 255, 256, 1_000,
    ] {
        for gates in [0, 1, 2, 2_046, 2_047, 2_048, 2_049, 2_050, 4_096] {
            let right = lines <= MOST_INPUTS && gates <= MOST_GATES && (lines > 0 || gates == 0);
            let known = match right {
                true => Known::Accepted,
                false => Known::Refused(27, 0),
            };
            comparison.text(&many(lines, gates, lines), &known);
            for outputs in [0, 1, 63, 64, 65, 255, 256, 257, 258] {
                if outputs != lines {
                    let known = Known::Refused(27, 0);
                    comparison.text(&many(lines, gates, outputs), &known);
                }
            }
        }
    }
    comparison.texts_group("with so many CCX, around the limits");
    for lines in [2, 3, 63, 64, 65] {
        for gates in [0, 1, 2, 2_046, 2_047, 2_048, 2_049, 2_050, 4_096] {
            let last = lines - 1;
            let line = format!("ccx q{last}[0],q0[0],q1[0];\n");
            let right = (3..=MOST_INPUTS).contains(&lines) && gates <= MOST_GATES;
            let known = match right || (lines == 2 && gates == 0) {
                true => Known::Accepted,
                false => Known::Refused(27, 0),
            };
            comparison.text(&many_of(&line, lines, gates, lines), &known);
        }
    }
    comparison.texts_group("with bits around the limits");
    for lines in [0, 1, 63, 64, 65, 128] {
        let mut text = HEAD.to_string();
        for line in 0..lines {
            text += &format!("creg c{line}[1];\n");
        }
        text += "// out";
        for line in (0..lines).rev() {
            text += &format!(" c{line}");
        }
        text += "\n";
        let known = match lines <= MOST_INPUTS {
            true => Known::Accepted,
            false => Known::Refused(27, 0),
        };
        comparison.text(text.as_bytes(), &known);
    }
    let mut random = Random::new(5);
    long_ones(comparison, &mut random);
}

/// As long as the longest that is read, and longer than that.
fn long_ones(comparison: &mut Comparison, random: &mut Random) {
    comparison.group("that are long");
    let [longest, under_a_bit] = [longest(), under_a_bit()].map(|listing| print(&listing));
    let shape = Shape::most(random).without_helpers();
    let other = print(&valid(random, &shape));
    let refused = Known::Refused(27, 0);
    for length in [
        LONGEST_TEXT - 1,
        LONGEST_TEXT,
        LONGEST_TEXT + 1,
        60_000,
        65_535,
        65_536,
        65_537,
        100_000,
        131_072,
        200_000,
        262_000,
    ] {
        for text in [&longest, &under_a_bit, &other, &many(1, 2, 1)] {
            for byte in [0, b' ', b'\n', b'#'] {
                let mut text = text.clone();
                text.resize(length, byte);
                comparison.text(&text, &refused);
            }
            // The text behind, and its end.
            let mut text = text.repeat(length / text.len() + 1);
            comparison.text(&text[..length], &refused);
            text.drain(..text.len() - length);
            comparison.text(&text, &refused);
        }
        let bytes: Vec<u8> = (0..length).map(|_| random.byte()).collect();
        comparison.text(&bytes, &refused);
        comparison.text(&vec![b'/'; length], &refused);
        // As a listing.
        comparison.listing(&bytes, &Known::Refused(24, 0));
        let gates = (length - HEAD.len()) / 9;
        comparison.text(&many(1, gates, 1), &refused);
    }
    // A text, and so many bytes that 16 bits hold its length.
    for text in [&longest, &under_a_bit, &other, &many(1, 2, 1)] {
        for more in [65_536, 131_072] {
            for byte in [0, b'\n'] {
                let mut text = text.clone();
                text.resize(text.len() + more, byte);
                comparison.text(&text, &refused);
            }
        }
    }
    // Lines of two long ones left out, and a byte of them changed.
    for text in [&longest, &under_a_bit] {
        let lines: Vec<&[u8]> = text.split_inclusive(|&byte| byte == b'\n').collect();
        for at in (0..lines.len()).step_by(7) {
            let mut fewer = lines.clone();
            fewer.remove(at);
            comparison.text(&fewer.concat(), &Known::Nothing);
            let mut line = lines[at].to_vec();
            let place = random.below(line.len());
            line[place] ^= 1 << random.below(8);
            let mut changed = lines.clone();
            changed[at] = &line;
            comparison.text(&changed.concat(), &Known::Nothing);
        }
    }
}
