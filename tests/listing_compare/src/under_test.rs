//! The check under test: the exported one, or the check in plain Rust where the
//! feature `port` has it stand in.

#[cfg(not(feature = "port"))]
pub use library::{answer, NAME};
#[cfg(feature = "port")]
pub use stand_in::{answer, NAME};

use pqm::lengths::LISTING;

/// The least length of the working memory: a byte for each wire.
pub const LEAST_WORK: usize = LISTING[0].1;

#[cfg(not(feature = "port"))]
mod library {
    pub const NAME: &str = "library";

    extern "C" {
        fn gawipsol_check_listing(
            listing_ptr: *const u8,
            listing_len: usize,
            work_ptr: *mut u8,
            work_len: usize,
        ) -> u64;
    }

    /// The exported check.
    pub fn answer(listing: &[u8], work: &mut [u8]) -> u64 {
        // Each pointer and length are those of one slice, and the two do not
        // overlap.
        unsafe {
            gawipsol_check_listing(
                listing.as_ptr(),
                listing.len(),
                work.as_mut_ptr(),
                work.len(),
            )
        }
    }
}

#[cfg(feature = "port")]
mod stand_in {
    use listings::{answer, Sizes};

    pub const NAME: &str = "port";

    /// The check in plain Rust.
    pub fn answer(listing: &[u8], work: &mut [u8]) -> u64 {
        let checked = port::listing::check(listing, work);
        answer::pack(&checked.map(|sizes| Sizes {
            inputs: sizes.inputs,
            gates: sizes.gates,
            outputs: sizes.outputs,
        }))
    }
}
