//! The export and the import under test: the exported ones, or those in plain
//! Rust where the feature `port` has them stand in.

#[cfg(not(feature = "port"))]
pub use library::{export, import, NAME};
#[cfg(feature = "port")]
pub use stand_in::{export, import, NAME};

#[cfg(not(feature = "port"))]
mod library {
    pub const NAME: &str = "library";

    extern "C" {
        fn gawipsol_export(
            listing_ptr: *const u8,
            listing_len: usize,
            out_ptr: *mut u8,
            out_len: usize,
            work_ptr: *mut u8,
            work_len: usize,
        ) -> u64;

        fn gawipsol_import(
            text_ptr: *const u8,
            text_len: usize,
            out_ptr: *mut u8,
            out_len: usize,
            slots_ptr: *mut u8,
            slots_len: usize,
            listing_ptr: *mut u8,
            listing_len: usize,
            table_ptr: *mut u8,
            table_len: usize,
            exported_ptr: *mut u8,
            exported_len: usize,
        ) -> u64;
    }

    /// The exported export: output buffer and working memory.
    pub fn export(listing: &[u8], [out, work]: [&mut [u8]; 2]) -> u64 {
        // Each pointer and length are those of one slice, and no two overlap.
        unsafe {
            gawipsol_export(
                listing.as_ptr(),
                listing.len(),
                out.as_mut_ptr(),
                out.len(),
                work.as_mut_ptr(),
                work.len(),
            )
        }
    }

    /// The exported import: output buffer, and four working memories.
    pub fn import(text: &[u8], buffers: [&mut [u8]; 5]) -> u64 {
        let [out, slots, listing, table, exported] = buffers;
        // As above.
        unsafe {
            gawipsol_import(
                text.as_ptr(),
                text.len(),
                out.as_mut_ptr(),
                out.len(),
                slots.as_mut_ptr(),
                slots.len(),
                listing.as_mut_ptr(),
                listing.len(),
                table.as_mut_ptr(),
                table.len(),
                exported.as_mut_ptr(),
                exported.len(),
            )
        }
    }
}

#[cfg(feature = "port")]
mod stand_in {
    use comparing::packed::{put, refused, SHORT};
    use program_files::Refusal;
    use qasm::lengths;

    pub const NAME: &str = "port";

    fn pack(answer: Result<usize, Refusal>) -> u64 {
        match answer {
            Ok(length) => put(length as u64, 6, 16),
            Err(refusal) => refused(&refusal),
        }
    }

    fn too_short<const N: usize>(buffers: &[&mut [u8]; N], least: [usize; N]) -> bool {
        let mut both = buffers.iter().zip(least);
        both.any(|(buffer, least)| buffer.len() < least)
    }

    /// The export in plain Rust.
    pub fn export(listing: &[u8], buffers: [&mut [u8]; 2]) -> u64 {
        if too_short(&buffers, lengths::EXPORT) {
            return refused(&SHORT);
        }
        let [out, work] = buffers;
        pack(port::qasm::export(listing, out, work))
    }

    /// The import in plain Rust, which needs none of the working memories.
    pub fn import(text: &[u8], buffers: [&mut [u8]; 5]) -> u64 {
        if too_short(&buffers, lengths::IMPORT) {
            return refused(&SHORT);
        }
        let [out, work @ ..] = buffers;
        work.into_iter().for_each(|buffer| buffer.fill(0));
        pack(port::qasm::import(text, out))
    }
}
