//! The only unsafe code of this crate: the proved calls, and the reading of the processor's control word.

use std::arch::asm;

/// As `struct noddyfir_run` of `include/noddyfir.h`.
#[repr(C)]
pub struct Run {
    pub records: usize,
    pub read: usize,
    pub written: usize,
    pub reason: u8,
}

// A slice is passed as a pointer and a length.
#[link(name = "noddyfir", kind = "static")]
unsafe extern "C" {
    fn noddyfir_energies(record: *const u8, size: usize, answer: *mut u8, room: usize) -> u8;
    fn noddyfir_ends(record: *const u8, size: usize, answer: *mut u8, room: usize) -> u8;
    fn noddyfir_slopes(record: *const u8, size: usize, answer: *mut u8, room: usize) -> u8;
    fn noddyfir_run_energies(records: *const u8, size: usize, answers: *mut u8, room: usize)
    -> Run;
    fn noddyfir_run_ends(records: *const u8, size: usize, answers: *mut u8, room: usize) -> Run;
    fn noddyfir_run_slopes(records: *const u8, size: usize, answers: *mut u8, room: usize) -> Run;
    fn noddyfir_to_version_2(record: *const u8, size: usize, out: *mut u8, room: usize) -> u8;
    fn noddyfir_to_version_1(record: *const u8, size: usize, out: *mut u8, room: usize) -> u8;
}

// Each call is safe: it has no `requires`, its proof says that it stays within the two slices, and Rust sees that these
// are not NULL and do not overlap.

pub fn energies(record: &[u8], answer: &mut [u8]) -> u8 {
    unsafe { noddyfir_energies(record.as_ptr(), record.len(), answer.as_mut_ptr(), answer.len()) }
}

pub fn ends(record: &[u8], answer: &mut [u8]) -> u8 {
    unsafe { noddyfir_ends(record.as_ptr(), record.len(), answer.as_mut_ptr(), answer.len()) }
}

pub fn slopes(record: &[u8], answer: &mut [u8]) -> u8 {
    unsafe { noddyfir_slopes(record.as_ptr(), record.len(), answer.as_mut_ptr(), answer.len()) }
}

pub fn run_energies(records: &[u8], answers: &mut [u8]) -> Run {
    let (answer, room) = (answers.as_mut_ptr(), answers.len());
    unsafe { noddyfir_run_energies(records.as_ptr(), records.len(), answer, room) }
}

pub fn run_ends(records: &[u8], answers: &mut [u8]) -> Run {
    let (answer, room) = (answers.as_mut_ptr(), answers.len());
    unsafe { noddyfir_run_ends(records.as_ptr(), records.len(), answer, room) }
}

pub fn run_slopes(records: &[u8], answers: &mut [u8]) -> Run {
    let (answer, room) = (answers.as_mut_ptr(), answers.len());
    unsafe { noddyfir_run_slopes(records.as_ptr(), records.len(), answer, room) }
}

pub fn to_version_2(record: &[u8], out: &mut [u8]) -> u8 {
    unsafe { noddyfir_to_version_2(record.as_ptr(), record.len(), out.as_mut_ptr(), out.len()) }
}

pub fn to_version_1(record: &[u8], out: &mut [u8]) -> u8 {
    unsafe { noddyfir_to_version_1(record.as_ptr(), record.len(), out.as_mut_ptr(), out.len()) }
}

/// The control word MXCSR of the calling thread.
pub fn control_word() -> u32 {
    let mut word = 0u32;
    // Safe: the instruction stores four bytes, to where `word` is.
    unsafe { asm!("stmxcsr [{}]", in(reg) &raw mut word, options(nostack, preserves_flags)) };
    word
}
