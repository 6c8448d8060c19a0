//! The single calls of crate noddyfir (crates/noddyfir/src/call.rt), by their C names.

#[link(name = "noddyfir", kind = "static")]
unsafe extern "C" {
    /// A slice is passed as a pointer and a length.
    #[link_name = "noddyfir_energies"]
    fn energies(record: *const u8, record_len: usize, answer: *mut u8, answer_len: usize) -> u8;

    #[link_name = "noddyfir_ends"]
    fn ends(record: *const u8, record_len: usize, answer: *mut u8, answer_len: usize) -> u8;

    #[link_name = "noddyfir_slopes"]
    fn slopes(record: *const u8, record_len: usize, answer: *mut u8, answer_len: usize) -> u8;
}

pub fn answer_energies(record: &[u8], answer: &mut [u8]) -> u8 {
    // Safe: the call has no `requires`, and its proof says that it stays within the two slices.
    unsafe { energies(record.as_ptr(), record.len(), answer.as_mut_ptr(), answer.len()) }
}

pub fn answer_ends(record: &[u8], answer: &mut [u8]) -> u8 {
    // Safe, as above.
    unsafe { ends(record.as_ptr(), record.len(), answer.as_mut_ptr(), answer.len()) }
}

pub fn answer_slopes(record: &[u8], answer: &mut [u8]) -> u8 {
    // Safe, as above.
    unsafe { slopes(record.as_ptr(), record.len(), answer.as_mut_ptr(), answer.len()) }
}
