//! Rearranged files.

use super::library;

/// Rearranges a tree file; [`file_bytes`](model::sizes::file_bytes) are enough. What is done
/// is the number of bytes.
pub fn to_columns(file: &[u8], columns: &mut [u8]) -> u32 {
    // SAFETY: pointers and lengths are those of slices, of which none overlaps
    // another; the function demands nothing else of its arguments.
    unsafe {
        library::tezhukor_to_columns(file.as_ptr(), file.len(), columns.as_mut_ptr(), columns.len())
    }
}

/// Puts a rearranged file back; [`file_bytes`](model::sizes::file_bytes) are enough. What is
/// done is the number of bytes.
pub fn from_columns(columns: &[u8], file: &mut [u8]) -> u32 {
    // SAFETY: as above.
    unsafe {
        library::tezhukor_from_columns(
            columns.as_ptr(),
            columns.len(),
            file.as_mut_ptr(),
            file.len(),
        )
    }
}

/// Loads a rearranged file into a table, as [`load`](super::load) does the tree file that it
/// is put back to.
pub fn load_columns(columns: &[u8], table: &mut [u16]) -> u32 {
    // SAFETY: as above.
    unsafe {
        library::tezhukor_load_columns(
            columns.as_ptr(),
            columns.len(),
            table.as_mut_ptr(),
            table.len(),
        )
    }
}
