//! The buffers that a call is lent, each at the start or at the end of memory
//! behind which nothing may be touched.

use crate::guarded::Region;
use program_files::Random;
use std::ops::Range;

/// So many bytes on the free side of a buffer are watched, too.
const WATCHED: usize = 64;

/// The longest file or buffer that is lent.
const LONGEST: usize = 4 * 65_536;

/// A file or buffer in a region of its own.
struct Buffer {
    name: &'static str,
    region: Region,
    /// Where in the region it lies.
    place: Range<usize>,
    /// Where among the random bytes those that are watched start.
    start: usize,
}

/// A file and buffers, with random bytes in the buffers and around them.
pub struct Lent<const N: usize> {
    file: Buffer,
    buffers: [Buffer; N],
    /// An answer in words.
    in_words: fn(u64) -> String,
    random: Random,
    pattern: Vec<u8>,
    zeros: Vec<u8>,
}

/// What a call is to answer, and what it is to leave in the buffers.
pub struct Expected<'a> {
    pub packed: u64,
    /// The first bytes of the first buffer, which is the output buffer.
    pub out: &'a [u8],
    /// Whether all other buffers, which are working memory, are zero.
    pub cleared: bool,
}

impl Buffer {
    fn new(name: &'static str) -> Buffer {
        Buffer {
            name,
            region: Region::new(LONGEST),
            place: 0..0,
            start: 0,
        }
    }

    /// Places a buffer of this length, with random bytes in it and around it.
    fn lend(&mut self, length: usize, random: &mut Random, pattern: &[u8]) {
        let end = match random.below(4) {
            0 => length,
            _ => self.region.length(),
        };
        self.place = end - length..end;
        let watched = self.watched();
        self.start = random.below(pattern.len() - watched.len());
        let bytes = &pattern[self.start..][..watched.len()];
        self.region.bytes_mut()[watched].copy_from_slice(bytes);
    }

    /// The buffer with the bytes around it that are watched.
    fn watched(&self) -> Range<usize> {
        let end = self.region.length().min(self.place.end + WATCHED);
        self.place.start.saturating_sub(WATCHED)..end
    }

    fn bytes(&self) -> &[u8] {
        &self.region.bytes()[self.place.clone()]
    }

    fn bytes_mut(&mut self) -> &mut [u8] {
        &mut self.region.bytes_mut()[self.place.clone()]
    }

    /// The buffer starts with these bytes, and the others are as they were.
    fn compare(&self, written: &[u8], pattern: &[u8]) -> Result<(), String> {
        let bytes = self.region.bytes();
        let (watched, place) = (self.watched(), self.place.clone());
        let behind = place.start + written.len()..watched.end;
        let before = watched.start..place.start;
        let old = |range: &Range<usize>| {
            let start = self.start + range.start - watched.start;
            &pattern[start..start + range.len()]
        };
        let same = bytes[before.clone()] == *old(&before)
            && bytes[place.start..][..written.len()] == *written
            && bytes[behind.clone()] == *old(&behind);
        if same {
            return Ok(());
        }
        let expected = [old(&before), written, old(&behind)].concat();
        let both = bytes[watched.clone()].iter().zip(&expected);
        let wrong = both.take_while(|(byte, expected)| byte == expected).count();
        Err(format!(
            "byte {} of {} ({} bytes) is {}, expected {}",
            (watched.start + wrong) as isize - place.start as isize,
            self.name,
            place.len(),
            bytes[watched.start + wrong],
            expected[wrong]
        ))
    }
}

impl<const N: usize> Lent<N> {
    /// Buffers of these names, the output buffer first.
    pub fn new(seed: u64, names: [&'static str; N], in_words: fn(u64) -> String) -> Lent<N> {
        let mut random = Random::new(seed);
        let pattern = (0..LONGEST + 65_536).map(|_| random.byte()).collect();
        Lent {
            file: Buffer::new("the file"),
            buffers: names.map(Buffer::new),
            in_words,
            random,
            pattern,
            zeros: vec![0; LONGEST],
        }
    }

    pub fn file(&self) -> &[u8] {
        self.file.bytes()
    }

    pub fn lengths(&self) -> [usize; N] {
        self.buffers.each_ref().map(|buffer| buffer.place.len())
    }

    /// The file and the buffers.
    pub fn parts(&mut self) -> (&[u8], [&mut [u8]; N]) {
        let buffers = self.buffers.each_mut();
        (self.file.bytes(), buffers.map(Buffer::bytes_mut))
    }

    /// The bytes of the region of a buffer, and the buffer's place in it.
    pub fn region(&mut self, buffer: usize) -> (&mut [u8], Range<usize>) {
        let buffer = &mut self.buffers[buffer];
        (buffer.region.bytes_mut(), buffer.place.clone())
    }

    /// Changes a byte beside a buffer.
    pub fn touch_beside(&mut self, buffer: usize) {
        let (bytes, place) = self.region(buffer);
        let beside = place.start.checked_sub(1).unwrap_or(place.end);
        bytes[beside] ^= 1;
    }

    /// Changes a byte of the file, if it has one.
    pub fn touch_file(&mut self) {
        if let Some(byte) = self.file.bytes_mut().first_mut() {
            *byte ^= 1;
        }
    }

    /// Makes a call with buffers of these lengths, and compares its answer and
    /// every byte with what they are to be. What differs, if anything.
    pub fn call(
        &mut self,
        call: impl FnOnce(&mut Lent<N>) -> u64,
        file: &[u8],
        lengths: &[usize; N],
        expected: &Expected,
    ) -> Result<(), String> {
        let (random, pattern) = (&mut self.random, &self.pattern);
        self.file.lend(file.len(), random, pattern);
        self.file.bytes_mut().copy_from_slice(file);
        for (buffer, &length) in self.buffers.iter_mut().zip(lengths) {
            buffer.lend(length, random, pattern);
        }
        let packed = call(self);
        if packed != expected.packed {
            return Err(format!(
                "answer {}, expected {}",
                (self.in_words)(packed),
                (self.in_words)(expected.packed)
            ));
        }
        self.file.compare(file, &self.pattern)?;
        for (at, buffer) in self.buffers.iter().enumerate() {
            let written = match at {
                0 => expected.out,
                _ if expected.cleared => &self.zeros[..buffer.place.len()],
                _ => &[],
            };
            buffer.compare(written, &self.pattern)?;
        }
        Ok(())
    }
}
