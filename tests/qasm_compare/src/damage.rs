//! Texts with damage, and texts of right lines that name any lines.

use comparing::Known;
use listings::generate::{valid, Shape};
use program_files::Random;
use qasm::cases::exports;
use qasm::damaged::{self, KINDS};
use qasm::{loose, print, CompareTexts};

/// Every damage is done to the texts of so many generated listings, and to the
/// first of those written by hand.
const SMALL: usize = 3;
const BY_HAND: usize = 4;

/// How many texts of at most so many inputs and gates have damage somewhere.
const SOMEWHERE: [(usize, usize, usize); 3] = [(40_000, 4, 6), (10_000, 16, 40), (600, 64, 2_048)];

pub fn compare(comparison: &mut impl CompareTexts) {
    let mut random = Random::new(4);
    let mut texts: Vec<Vec<u8>> = exports()
        .into_iter()
        .take(BY_HAND)
        .map(|case| case.text.into_bytes())
        .collect();
    for _ in 0..SMALL {
        let mut shape = Shape::any(&mut random, 4, 4).without_helpers();
        (shape.inputs, shape.gates) = (random.between(2, 4), 4);
        shape.bits = random.between(0, 1);
        texts.push(print(&valid(&mut random, &shape)));
    }
    let mut shape = Shape::three_wires(&mut random, 4, 2).without_helpers();
    (shape.inputs, shape.gates) = (4, 2);
    texts.push(print(&valid(&mut random, &shape)));
    for (name, damage) in KINDS {
        comparison.texts_group(name);
        for text in &texts {
            damage(text, &mut |damaged| {
                comparison.text(damaged, &Known::Nothing)
            });
        }
    }
    comparison.texts_group("with damage somewhere");
    for (count, inputs, gates) in SOMEWHERE {
        for _ in 0..count {
            let shape = match random.below(4) {
                0 => Shape::three_wires(&mut random, inputs, gates),
                _ => Shape::any(&mut random, inputs, gates),
            };
            let text = print(&valid(&mut random, &shape.without_helpers()));
            comparison.text(&damaged::any(&mut random, &text), &Known::Nothing);
        }
    }
    comparison.texts_group("of few lines and at most two gates");
    loose::small(2, |text| comparison.text(text, &Known::Nothing));
    comparison.texts_group("of three lines and CCX on any of them");
    loose::three(|text| comparison.text(text, &Known::Nothing));
    comparison.texts_group("of gates on any lines");
    for _ in 0..60_000 {
        comparison.text(&loose::any(&mut random), &Known::Nothing);
    }
    comparison.texts_group("of random bytes");
    for _ in 0..5_000 {
        let length = random.between(0, 300);
        let bytes: Vec<u8> = (0..length).map(|_| random.byte()).collect();
        comparison.text(&bytes, &Known::Refused(27, 0));
        // Behind the right beginning.
        let mut text = texts[0][..random.below(texts[0].len())].to_vec();
        text.extend(bytes);
        comparison.text(&text, &Known::Nothing);
    }
}
