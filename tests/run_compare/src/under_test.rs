//! The run under test: the exported one, or the machine in plain Rust where
//! the feature `port` has it stand in.

#[cfg(not(feature = "port"))]
pub use library::{answer, NAME};
#[cfg(feature = "port")]
pub use stand_in::{answer, NAME};

#[cfg(not(feature = "port"))]
mod library {
    use crate::interface::BUFFERS;

    pub const NAME: &str = "library";

    extern "C" {
        fn gawipsol_run(
            file_ptr: *const u8,
            file_len: usize,
            limit: u32,
            out_ptr: *mut u8,
            out_len: usize,
            nodes_ptr: *mut u8,
            nodes_len: usize,
            stack_ptr: *mut u8,
            stack_len: usize,
            types_ptr: *mut u8,
            types_len: usize,
            frames_ptr: *mut u8,
            frames_len: usize,
            gates_ptr: *mut u8,
            gates_len: usize,
            circuits_ptr: *mut u8,
            circuits_len: usize,
            results0_ptr: *mut u8,
            results0_len: usize,
            results1_ptr: *mut u8,
            results1_len: usize,
            results2_ptr: *mut u8,
            results2_len: usize,
            results3_ptr: *mut u8,
            results3_len: usize,
        ) -> u64;
    }

    /// The exported run.
    pub fn answer(
        file: &[u8],
        limit: u32,
        out: &mut [u8],
        working: [&mut [u8]; BUFFERS - 1],
    ) -> u64 {
        let [nodes, stack, types, frames, gates, circuits, results0, results1, results2, results3] =
            working;
        // Each pointer and length are those of one slice, and no two overlap.
        unsafe {
            gawipsol_run(
                file.as_ptr(),
                file.len(),
                limit,
                out.as_mut_ptr(),
                out.len(),
                nodes.as_mut_ptr(),
                nodes.len(),
                stack.as_mut_ptr(),
                stack.len(),
                types.as_mut_ptr(),
                types.len(),
                frames.as_mut_ptr(),
                frames.len(),
                gates.as_mut_ptr(),
                gates.len(),
                circuits.as_mut_ptr(),
                circuits.len(),
                results0.as_mut_ptr(),
                results0.len(),
                results1.as_mut_ptr(),
                results1.len(),
                results2.as_mut_ptr(),
                results2.len(),
                results3.as_mut_ptr(),
                results3.len(),
            )
        }
    }
}

#[cfg(feature = "port")]
mod stand_in {
    use crate::interface::{is_short, pack, pack_finished, BUFFERS, LEAST, SHORT};
    use comparing::packed;
    use port::{Answer, Memory};
    use std::cell::RefCell;

    pub const NAME: &str = "port";

    thread_local! {
        static MEMORY: RefCell<Memory> = RefCell::default();
    }

    /// The machine in plain Rust, in memory of its own; what is lent is
    /// cleared as the exported run does.
    pub fn answer(
        file: &[u8],
        limit: u32,
        out: &mut [u8],
        working: [&mut [u8]; BUFFERS - 1],
    ) -> u64 {
        let mut lengths = LEAST;
        lengths[0] = out.len();
        for (length, buffer) in lengths[1..].iter_mut().zip(&working) {
            *length = buffer.len();
        }
        if is_short(&lengths) {
            return pack(&SHORT);
        }
        for buffer in working {
            buffer.fill(0);
        }
        let answer = MEMORY.with_borrow_mut(|memory| port::run(file, limit, out, memory));
        match answer {
            Answer::Finished {
                steps,
                gates,
                length,
            } => pack_finished(steps, gates, length),
            Answer::Refused(refusal) => packed::refused(&refusal),
        }
    }
}
