//! C and Rust say the same of each fault. Of the codes they do by tools/codes, which writes both.

use noddyfir::Fault;

const C: &str = include_str!("../../../c/sentences.c");

#[test]
fn every_sentence_of_a_fault_is_in_the_c_source() {
    for fault in
        [Fault::Traps, Fault::Rounding, Fault::Subnormals, Fault::Precision, Fault::KnownCase]
    {
        let sentence = fault.sentence();
        assert!(C.contains(&format!("\"{sentence}\",")), "{sentence}");
    }
}
