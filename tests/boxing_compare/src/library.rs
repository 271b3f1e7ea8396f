//! The exported check and the exported run, with buffers of the least lengths.

use check_compare::library::{self, LEAST_OUT, LEAST_WORK};
use comparing::packed;
use evaluator::Answer;
use program_files::Refusal;
use run_compare::interface::{unpack, BUFFERS, LEAST};
use run_compare::under_test;

pub struct Library {
    /// The output buffer and the working memories of a run.
    buffers: [Vec<u8>; BUFFERS],
    /// The output buffer and the working memory of a check.
    out: Vec<u8>,
    work: Vec<u8>,
    pub calls: usize,
}

impl Library {
    pub fn new() -> Library {
        Library {
            buffers: LEAST.map(|length| vec![0; length]),
            out: vec![0; LEAST_OUT],
            work: vec![0; LEAST_WORK],
            calls: 0,
        }
    }

    /// The program's type in preorder, or the refusal.
    pub fn check(&mut self, file: &[u8]) -> Result<&[u8], Refusal> {
        self.calls += 1;
        let answer = library::answer(file, &mut self.out, &mut self.work);
        match packed::number(answer) {
            0 => Ok(&self.out[..library::length(answer)]),
            _ => Err(packed::refusal(answer)),
        }
    }

    pub fn run(&mut self, file: &[u8], limit: u32) -> Answer {
        self.calls += 1;
        let [out, working @ ..] = self.buffers.each_mut();
        let working = working.map(|buffer| &mut buffer[..]);
        let answer = under_test::answer(file, limit, out, working);
        unpack(answer, out)
    }
}
