//! An answer as one number, as include/gawipsol.h reads it: bits 0 to 5 the
//! refusal's number, 0 where there is none; from bit 6 on its place, in 16
//! bits, or what else is answered.

use program_files::Refusal;

/// The refusal of a buffer shorter than its least length.
pub const SHORT: Refusal = Refusal {
    number: 19,
    place: 0,
};

/// A value in so many bits from a bit on, which hold it.
pub fn put(value: u64, from: u32, count: u32) -> u64 {
    assert_eq!(value >> count, 0, "{value} takes more than {count} bits");
    value << from
}

/// The value of so many bits from a bit on.
pub fn bits(answer: u64, from: u32, count: u32) -> u64 {
    answer >> from & ((1 << count) - 1)
}

/// A refusal. Of a greater place the bits that there is no room for are cut
/// off.
pub fn refused(refusal: &Refusal) -> u64 {
    put(u64::from(refusal.number), 0, 6) + put(refusal.place as u64 % 65_536, 6, 16)
}

/// 0, or the number of the refusal.
pub fn number(answer: u64) -> u8 {
    bits(answer, 0, 6) as u8
}

/// The refusal of an answer that is one.
pub fn refusal(answer: u64) -> Refusal {
    Refusal {
        number: number(answer),
        place: bits(answer, 6, 16) as usize,
    }
}

/// The answer in words, of which those of an answer without refusal are given.
pub fn in_words(answer: u64, accepted: impl FnOnce() -> String) -> String {
    let words = match number(answer) {
        0 => accepted(),
        number => format!("refused {number}, place {}", bits(answer, 6, 16)),
    };
    format!("{words} ({answer:#018x})")
}
