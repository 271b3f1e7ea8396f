//! The files that are compared, all from fixed seeds.

use comparing::files::{room_for_faults, ComparePrograms};
use comparing::Known;
use program_files::entries::LONGEST;
use program_files::faults::broken;
use program_files::generate::{Generator, Grouping, Lean, Shape};
use program_files::{kinds, read, Entries, Entry, Random};

pub fn compare(comparison: &mut impl ComparePrograms) {
    random_bytes(comparison);
    every_kind_and_argument(comparison);
    all_small_types(comparison);
    all_small_terms(comparison);
    sizes_at_bounds(comparison);
    any_accepted(comparison);
    extreme_accepted(comparison);
    one_kind_alone(comparison);
    one_byte_changed(comparison);
    cut_and_extended(comparison);
    sections_moved(comparison);
    one_fault(comparison);
    several_faults(comparison);
}

/// A file of the generator is accepted, and its program read back.
fn accepted(comparison: &mut impl ComparePrograms, random: &mut Random, shape: &Shape) -> Entries {
    let (program, entries) = Generator::entries(random, shape);
    let bytes = entries.bytes();
    comparison.program(&bytes, &Known::Accepted);
    let read = read(&bytes).expect("an accepted file");
    assert_eq!(read.labels, program.labels, "labels read back");
    assert!(read.term == program.term, "term read back");
    let mut at = 0;
    for listed in &program.listed {
        assert!(read.types[at] == *listed, "type read back");
        at += listed.size();
    }
    entries
}

/// All lengths from 0 to 64, with more and more of the file as it should be.
fn random_bytes(comparison: &mut impl ComparePrograms) {
    comparison.group("random bytes, lengths 0 to 64");
    let mut random = Random::new(1);
    for length in 0..=64 {
        for _ in 0..150 {
            for level in 0..7 {
                comparison.program(&bytes_at_level(length, level, &mut random), &Known::Nothing);
            }
        }
    }
}

/// Level 0: random bytes. 1: small sizes. 2: sizes that fit the length. 3: and
/// nearly all kinds of their section. 4: and nearly all arguments small. 5: all
/// kinds, nearly all arguments 0. 6: all kinds, all arguments 0 or a variable's.
fn bytes_at_level(length: usize, level: usize, random: &mut Random) -> Vec<u8> {
    let mut bytes: Vec<u8> = (0..length).map(|_| random.byte()).collect();
    if length < 6 || level == 0 {
        return bytes;
    }
    let all = (length - 6) / 3;
    let (labels, types, terms) = if level == 1 || all == 0 {
        (random.below(4), random.below(4), random.below(5))
    } else {
        let labels = random.below(all.min(4));
        let types = random.below((all - labels).min(8));
        (labels, types, all - labels - types)
    };
    let sizes = [labels as u8, 0, types as u8, 0, terms as u8, 0];
    bytes[..6].copy_from_slice(&sizes);
    if level < 3 || labels + types + terms != all {
        return bytes;
    }
    for number in 0..all {
        let kind = if number < labels {
            random.between(0, 1)
        } else if number < labels + types {
            // Leaves more often, so that not every type runs out.
            random.pick(&[0, 0, 1, 1, 2, 3, 4, 5, 6])
        } else {
            random.between(16, 27)
        } as u8;
        if level >= 5 || !random.one_in(40) {
            bytes[6 + number] = kind;
        }
        let argument = 6 + all + 2 * number;
        let small = match bytes[6 + number] {
            kinds::VARIABLE => random.below(3),
            _ if level == 4 => random.below(12) / 10,
            _ if level == 5 => usize::from(random.one_in(30)),
            _ => 0,
        };
        if level >= 5 || (level == 4 && !random.one_in(40)) {
            bytes[argument] = small as u8;
            bytes[argument + 1] = 0;
        }
    }
    bytes
}

/// Every kind byte in each section, and many arguments with each kind.
fn every_kind_and_argument(comparison: &mut impl ComparePrograms) {
    comparison.group("every kind, many arguments");
    let base = Entries {
        labels: vec![Entry::new(kinds::BIT, 0); 3],
        types: vec![Entry::new(kinds::QUBIT, 0); 5],
        terms: vec![
            Entry::new(kinds::ABSTRACTION, 4),
            Entry::new(kinds::LET, 0),
            Entry::new(kinds::PAIR, 0),
            Entry::new(kinds::LABEL, 2),
            Entry::new(kinds::GATE, 10),
            Entry::new(kinds::LIFT, 0),
            Entry::new(kinds::VARIABLE, 2),
        ],
    };
    comparison.program(&base.bytes(), &Known::Accepted);
    let all = base.sizes().all();
    for number in 0..all {
        for kind in 0..=255 {
            let mut bytes = base.bytes();
            bytes[6 + number] = kind;
            comparison.program(&bytes, &Known::Nothing);
        }
    }
    let low = 0..=600;
    let high = (3..256).flat_map(|high| [256 * high - 1, 256 * high, 256 * high + 1]);
    let arguments: Vec<usize> = low.chain(high).chain([65_535]).collect();
    for number in [0, 3, 7] {
        for &argument in &arguments {
            comparison.program(
                &with_argument(&base, number, argument).bytes(),
                &Known::Nothing,
            );
        }
    }
    for kind in kinds::VARIABLE..=kinds::UNIT_VALUE {
        let mut whole = base.clone();
        let parts = kinds::term_parts(kind).expect("a kind of the term section");
        whole.terms.truncate(1);
        whole.terms.push(Entry::new(kind, 0));
        whole.terms.extend(vec![Entry::new(kinds::GATE, 0); parts]);
        for &argument in &arguments {
            comparison.program(&with_argument(&whole, 9, argument).bytes(), &Known::Nothing);
        }
    }
}

fn with_argument(entries: &Entries, number: usize, argument: usize) -> Entries {
    let mut changed = entries.clone();
    let sizes = entries.sizes();
    let entry = if number < sizes.labels {
        &mut changed.labels[number]
    } else if number < sizes.first_term() {
        &mut changed.types[number - sizes.labels]
    } else {
        &mut changed.terms[number - sizes.first_term()]
    };
    entry.argument = argument as u16;
    changed
}

/// Every list of so many entries from an alphabet.
fn every_list(alphabet: &[Entry], length: usize, mut visit: impl FnMut(&[Entry])) {
    let mut digits = vec![0; length];
    loop {
        let list: Vec<Entry> = digits.iter().map(|&digit| alphabet[digit]).collect();
        visit(&list);
        let Some(at) = digits.iter().rposition(|&digit| digit + 1 < alphabet.len()) else {
            return;
        };
        digits[at] += 1;
        digits[at + 1..].fill(0);
    }
}

/// All type sections of 1 to 5 entries, with a gate alone or a box at each
/// position.
fn all_small_types(comparison: &mut impl ComparePrograms) {
    comparison.group("all type sections of 1 to 5 entries");
    let kinds = kinds::BIT..=kinds::UNIT;
    let alphabet: Vec<Entry> = kinds.map(|kind| Entry::new(kind, 0)).collect();
    let gate = Entry::new(kinds::GATE, 0);
    for length in 1..=5 {
        every_list(&alphabet, length, |types| {
            let mut entries = Entries {
                labels: vec![Entry::new(kinds::QUBIT, 0); length % 2],
                types: types.to_vec(),
                terms: vec![gate],
            };
            comparison.program(&entries.bytes(), &Known::Nothing);
            for position in 0..length {
                entries.terms = vec![Entry::new(kinds::BOX, position as u16), gate];
                comparison.program(&entries.bytes(), &Known::Nothing);
            }
        });
    }
}

/// All term sections of 1 to 4 entries with small variables, and of 5 from
/// fewer kinds.
fn all_small_terms(comparison: &mut impl ComparePrograms) {
    comparison.group("all term sections of 1 to 4 entries, some of 5");
    let variables: Vec<Entry> = (0..3)
        .map(|argument| Entry::new(kinds::VARIABLE, argument))
        .collect();
    let all: Vec<Entry> = (kinds::LABEL..=kinds::UNIT_VALUE)
        .map(|kind| Entry::new(kind, 0))
        .collect();
    let fewer = [
        kinds::ABSTRACTION,
        kinds::PAIR,
        kinds::LET,
        kinds::LIFT,
        kinds::GATE,
    ];
    let fewer: Vec<Entry> = fewer.iter().map(|&kind| Entry::new(kind, 0)).collect();
    let mut visit = |terms: &[Entry]| {
        let entries = Entries {
            labels: vec![Entry::new(kinds::QUBIT, 0)],
            types: vec![Entry::new(kinds::BIT, 0)],
            terms: terms.to_vec(),
        };
        comparison.program(&entries.bytes(), &Known::Nothing);
    };
    for length in 1..=4 {
        every_list(
            &[variables.clone(), all.clone()].concat(),
            length,
            &mut visit,
        );
    }
    every_list(&[variables, fewer].concat(), 5, &mut visit);
}

/// Each size at its bounds and past them, with the length that fits.
fn sizes_at_bounds(comparison: &mut impl ComparePrograms) {
    comparison.group("sizes at their bounds");
    for labels in [0, 1, 63, 64, 65, 66, 255, 256, 320] {
        for types in [0, 1, 255, 256, 511, 512, 513, 514, 768] {
            for terms in [0, 1, 2, 255, 256, 2_047, 2_048, 2_049, 2_050, 2_304] {
                let mut entries = Entries {
                    labels: vec![Entry::new(kinds::QUBIT, 0); labels],
                    types: vec![Entry::new(kinds::BIT, 0); types],
                    terms: vec![Entry::new(kinds::FORCE, 0); terms],
                };
                if let Some(last) = entries.terms.last_mut() {
                    last.kind = kinds::GATE;
                }
                let known = if entries.sizes().in_range() {
                    Known::Accepted
                } else {
                    Known::Refused(2, 0)
                };
                comparison.program(&entries.bytes(), &known);
            }
        }
    }
    let mut random = Random::new(2);
    for _ in 0..4_000 {
        let mut size = |most: usize| match random.below(4) {
            0 => random.below(65_536),
            _ => random.between(0, most + 2),
        };
        let sizes = [size(64), size(512), size(2_048)];
        let mut bytes: Vec<u8> = sizes
            .iter()
            .flat_map(|&size| (size as u16).to_le_bytes())
            .collect();
        comparison.program(&bytes, &Known::Nothing);
        bytes.resize(6 + 3 * sizes.iter().sum::<usize>().min(3_000), 0);
        comparison.program(&bytes, &Known::Nothing);
    }
}

fn any_accepted(comparison: &mut impl ComparePrograms) {
    comparison.group("accepted files of any shape");
    let mut random = Random::new(3);
    for _ in 0..20_000 {
        let shape = Shape::any(&mut random, 6, 16, 24);
        accepted(comparison, &mut random, &shape);
    }
    for _ in 0..2_000 {
        let shape = Shape::any(&mut random, 64, 120, 300);
        accepted(comparison, &mut random, &shape);
    }
    for _ in 0..150 {
        let shape = Shape::any(&mut random, 64, 512, 2_048);
        accepted(comparison, &mut random, &shape);
    }
}

/// Each kind nested to either side, at many sizes up to the bounds.
fn extreme_accepted(comparison: &mut impl ComparePrograms) {
    comparison.group("accepted files, each kind nested");
    let mut random = Random::new(4);
    for kind in kinds::TERMS_WITH_PARTS {
        for lean in Lean::ALL {
            for terms in [1, 2, 3, 4, 5, 6, 7, 33, 256, 257, 1_024, 2_047, 2_048] {
                for labels in [0, 1, 64] {
                    let shape = Shape {
                        term_kinds: vec![kind],
                        lean,
                        ..Shape::new(labels, random.pick(&[0, 1, 3, 20]), terms)
                    };
                    accepted(comparison, &mut random, &shape);
                }
            }
        }
    }
    for kind in kinds::TYPES_WITH_PARTS {
        for lean in Lean::ALL {
            for grouping in Grouping::ALL {
                for types in [1, 2, 3, 4, 5, 6, 7, 64, 255, 256, 257, 511, 512] {
                    let shape = Shape {
                        type_kinds: vec![kind],
                        lean,
                        grouping,
                        ..Shape::new(random.pick(&[0, 64]), types, random.pick(&[1, 2, 20]))
                    };
                    accepted(comparison, &mut random, &shape);
                }
            }
        }
    }
    for labels in [0, 64] {
        for types in [0, 512] {
            for terms in [1, 2_048] {
                for _ in 0..10 {
                    let mut shape = Shape::any(&mut random, labels, types, terms);
                    (shape.labels, shape.types, shape.terms) = (labels, types, terms);
                    accepted(comparison, &mut random, &shape);
                }
            }
        }
    }
}

/// Sections of one kind alone, which run out, with and without a last leaf.
fn one_kind_alone(comparison: &mut impl ComparePrograms) {
    comparison.group("one kind alone");
    let bit = Entry::new(kinds::BIT, 0);
    let gate = Entry::new(kinds::GATE, 0);
    for count in [
        1, 2, 3, 4, 5, 100, 255, 256, 257, 511, 512, 1_000, 2_047, 2_048,
    ] {
        for kind in kinds::VARIABLE..=kinds::UNIT_VALUE {
            let mut entries = Entries {
                labels: vec![bit],
                types: vec![bit],
                terms: vec![Entry::new(kind, 0); count],
            };
            comparison.program(&entries.bytes(), &Known::Nothing);
            entries.terms[count - 1] = gate;
            comparison.program(&entries.bytes(), &Known::Nothing);
        }
        for kind in kinds::BIT..=kinds::UNIT {
            let mut entries = Entries {
                labels: vec![bit],
                types: vec![Entry::new(kind, 0); count],
                terms: vec![gate],
            };
            comparison.program(&entries.bytes(), &Known::Nothing);
            entries.types[count - 1] = bit;
            comparison.program(&entries.bytes(), &Known::Nothing);
        }
    }
}

fn one_byte_changed(comparison: &mut impl ComparePrograms) {
    comparison.group("one byte changed at every position");
    let mut random = Random::new(5);
    for _ in 0..450 {
        let shape = Shape::any(&mut random, 2, 8, 16);
        change_each_byte(comparison, &mut random, &shape, 6);
    }
    for _ in 0..20 {
        let shape = Shape::any(&mut random, 20, 80, 160);
        change_each_byte(comparison, &mut random, &shape, 4);
    }
    change_each_byte(comparison, &mut random, &Shape::new(64, 512, 2_048), 2);
}

/// Changes each byte of one file so many times.
fn change_each_byte(
    comparison: &mut impl ComparePrograms,
    random: &mut Random,
    shape: &Shape,
    times: usize,
) {
    let mut bytes = accepted(comparison, random, shape).bytes();
    for at in 0..bytes.len() {
        let old = bytes[at];
        let start = random.below(6);
        for way in start..start + times {
            let new = match way % 6 {
                0 => old.wrapping_add(1),
                1 => old.wrapping_sub(1),
                2 => random.between(0, 28) as u8,
                3 => random.byte(),
                4 => random.pick(&[0, 2, 5, 6, 7, 16, 18, 24, 26, 27, 28, 255]),
                _ => old ^ (1 << random.below(8)),
            };
            if new != old {
                bytes[at] = new;
                comparison.program(&bytes, &Known::Nothing);
            }
        }
        bytes[at] = old;
    }
}

fn cut_and_extended(comparison: &mut impl ComparePrograms) {
    comparison.group("cut and extended files");
    let mut random = Random::new(6);
    for _ in 0..600 {
        let shape = Shape::any(&mut random, 4, 8, 16);
        let bytes = accepted(comparison, &mut random, &shape).bytes();
        for length in 0..bytes.len() {
            let number = if length < 6 { 1 } else { 3 };
            comparison.program(&bytes[..length], &Known::Refused(number, 0));
        }
        let mut longer = bytes;
        for _ in 0..12 {
            longer.push(random.byte());
            comparison.program(&longer, &Known::Refused(3, 0));
        }
    }
    for _ in 0..3 {
        let mut shape = Shape::any(&mut random, 64, 512, 2_048);
        (shape.labels, shape.types, shape.terms) = (64, 512, 2_048);
        let bytes = accepted(comparison, &mut random, &shape).bytes();
        assert_eq!(bytes.len(), LONGEST, "the longest file");
        for length in (0..LONGEST).step_by(3).chain(LONGEST - 20..LONGEST) {
            let number = if length < 6 { 1 } else { 3 };
            comparison.program(&bytes[..length], &Known::Refused(number, 0));
        }
        let mut longer = bytes;
        for length in [
            7_879,
            7_880,
            7_881,
            7_884,
            8_192,
            65_535,
            65_536,
            LONGEST + 65_536,
            200_000,
        ] {
            longer.resize_with(length, || random.byte());
            comparison.program(&longer, &Known::Refused(3, 0));
        }
    }
    // Lengths that agree only in their low 8 or 16 bits.
    for _ in 0..40 {
        let shape = Shape::any(&mut random, 64, 100, 100);
        let bytes = accepted(comparison, &mut random, &shape).bytes();
        for more in [256, 512, 7_936, 65_536, 131_072] {
            let mut longer = bytes.clone();
            longer.resize(bytes.len() + more, 0);
            comparison.program(&longer, &Known::Refused(3, 0));
        }
    }
}

/// The same entries with other sizes: sections that end elsewhere, and files
/// with an entry more or less.
fn sections_moved(comparison: &mut impl ComparePrograms) {
    comparison.group("sections moved");
    let mut random = Random::new(7);
    for _ in 0..1_500 {
        let shape = Shape::any(&mut random, 5, 12, 20);
        let entries = accepted(comparison, &mut random, &shape);
        let all: Vec<Entry> = entries.all().copied().collect();
        let sizes = entries.sizes();
        for _ in 0..12 {
            let labels = moved(sizes.labels, &mut random).min(all.len() - 1);
            let types = moved(sizes.types, &mut random).min(all.len() - 1 - labels);
            let mut list = all.clone();
            match random.below(3) {
                0 => {
                    list.remove(random.below(all.len()));
                }
                1 => list.insert(random.below(all.len()), random.pick(&all)),
                _ => {}
            }
            let labels = labels.min(list.len());
            let types = types.min(list.len() - labels);
            let terms = list.split_off(labels + types);
            let section = list.split_off(labels);
            let changed = Entries {
                labels: list,
                types: section,
                terms,
            };
            comparison.program(&changed.bytes(), &Known::Nothing);
        }
    }
}

/// One more, one less or the same.
fn moved(size: usize, random: &mut Random) -> usize {
    (size + random.below(3)).saturating_sub(1)
}

/// An accepted file with room for all faults, mostly.
fn base(comparison: &mut impl ComparePrograms, random: &mut Random) -> Entries {
    let entries = room_for_faults(random);
    if random.one_in(8) {
        comparison.program(&entries.bytes(), &Known::Accepted);
    }
    entries
}

fn with_faults(comparison: &mut impl ComparePrograms, random: &mut Random, numbers: &[u8]) {
    loop {
        let entries = base(comparison, random);
        if let Some(broken) = broken(entries, numbers, random) {
            comparison.program(&broken.bytes, &Known::of_file(&broken));
            return;
        }
    }
}

fn one_fault(comparison: &mut impl ComparePrograms) {
    comparison.group("one fault");
    let mut random = Random::new(8);
    for number in 1..=9 {
        for _ in 0..4_000 {
            with_faults(comparison, &mut random, &[number]);
        }
    }
    // At the bounds: variables under 2,047 binders, types 512 deep.
    for number in 4..=9 {
        for round in 0..60 {
            let kind = random.pick(&kinds::TERMS_WITH_PARTS);
            let shape = Shape {
                type_kinds: vec![random.pick(&kinds::TYPES_WITH_PARTS)],
                term_kinds: vec![if round % 2 == 0 {
                    kinds::ABSTRACTION
                } else {
                    kind
                }],
                lean: random.pick(&Lean::ALL),
                grouping: random.pick(&Grouping::ALL),
                ..Shape::new(64, 512, 2_048)
            };
            let (_, entries) = Generator::entries(&mut random, &shape);
            if let Some(broken) = broken(entries, &[number], &mut random) {
                comparison.program(&broken.bytes, &Known::of_file(&broken));
            }
        }
    }
}

/// The lowest number is the answer, whatever the others.
fn several_faults(comparison: &mut impl ComparePrograms) {
    comparison.group("several faults");
    let mut random = Random::new(9);
    for first in 1..=9 {
        for second in first + 1..=9 {
            for _ in 0..400 {
                with_faults(comparison, &mut random, &[first, second]);
            }
            for third in second + 1..=9 {
                for _ in 0..100 {
                    with_faults(comparison, &mut random, &[first, second, third]);
                }
            }
        }
    }
    for _ in 0..8_000 {
        let numbers: Vec<u8> = (2..=9).filter(|_| random.one_in(2)).collect();
        if !numbers.is_empty() {
            with_faults(comparison, &mut random, &numbers);
        }
    }
    // Two faults of one number: the first place counts.
    for number in 4..=9 {
        for _ in 0..2_000 {
            let entries = base(comparison, &mut random);
            if let Some(broken) = broken(entries, &[number, number], &mut random) {
                comparison.program(&broken.bytes, &Known::Nothing);
            }
        }
    }
}
