//! The exported functions: each pointer and length are those of one slice, no two of
//! which overlap, and what is taken is only read.

mod exported {
    extern "C" {
        pub fn gawipsol_read(file: *const u8, file_length: usize) -> u64;
        pub fn gawipsol_check(
            file: *const u8,
            file_length: usize,
            out: *mut u8,
            out_length: usize,
            work: *mut u8,
            work_length: usize,
        ) -> u64;
        pub fn gawipsol_run(
            file: *const u8,
            file_length: usize,
            limit: u32,
            out: *mut u8,
            out_length: usize,
            nodes: *mut u8,
            nodes_length: usize,
            stack: *mut u8,
            stack_length: usize,
            types: *mut u8,
            types_length: usize,
            frames: *mut u8,
            frames_length: usize,
            gates: *mut u8,
            gates_length: usize,
            circuits: *mut u8,
            circuits_length: usize,
            results0: *mut u8,
            results0_length: usize,
            results1: *mut u8,
            results1_length: usize,
            results2: *mut u8,
            results2_length: usize,
            results3: *mut u8,
            results3_length: usize,
        ) -> u64;
        pub fn gawipsol_check_listing(
            listing: *const u8,
            listing_length: usize,
            work: *mut u8,
            work_length: usize,
        ) -> u64;
        pub fn gawipsol_export(
            listing: *const u8,
            listing_length: usize,
            out: *mut u8,
            out_length: usize,
            work: *mut u8,
            work_length: usize,
        ) -> u64;
        pub fn gawipsol_import(
            text: *const u8,
            text_length: usize,
            out: *mut u8,
            out_length: usize,
            slots: *mut u8,
            slots_length: usize,
            listing: *mut u8,
            listing_length: usize,
            table: *mut u8,
            table_length: usize,
            exported: *mut u8,
            exported_length: usize,
        ) -> u64;
    }
}

/// Calls an exported function, each slice as a pointer and its length.
macro_rules! call {
    ($function:ident, $taken:expr $(, limit $limit:expr)?; $($lent:expr),*) => {
        unsafe {
            exported::$function(
                $taken.as_ptr(),
                $taken.len(),
                $($limit,)?
                $($lent.as_mut_ptr(), $lent.len()),*
            )
        }
    };
}

pub fn read(file: &[u8]) -> u64 {
    call!(gawipsol_read, file;)
}

pub fn check(file: &[u8], out: &mut [u8], work: &mut [u8]) -> u64 {
    call!(gawipsol_check, file; out, work)
}

pub fn run(file: &[u8], limit: u32, lent: &mut [Vec<u8>; 11]) -> u64 {
    let [out, nodes, stack, types, frames, gates, circuits, lent @ ..] = lent;
    let [results0, results1, results2, results3] = lent;
    call!(
        gawipsol_run, file, limit limit;
        out, nodes, stack, types, frames, gates, circuits, results0, results1, results2, results3
    )
}

pub fn check_listing(listing: &[u8], work: &mut [u8]) -> u64 {
    call!(gawipsol_check_listing, listing; work)
}

pub fn export(listing: &[u8], out: &mut [u8], work: &mut [u8]) -> u64 {
    call!(gawipsol_export, listing; out, work)
}

pub fn import(text: &[u8], lent: &mut [Vec<u8>; 5]) -> u64 {
    let [out, slots, listing, table, exported] = lent;
    call!(gawipsol_import, text; out, slots, listing, table, exported)
}
