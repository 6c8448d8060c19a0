//! The calls refuse to work in a thread whose arithmetic is not in its default mode.

use noddyfir::{
    Case, Fault, Mixture, Perturbation, Refusal, State, Substance, bytes, ends, energies, pressure,
    run_ends, self_check, slopes, to_version_1, to_version_2,
};
use std::arch::asm;
use std::{slice, thread};

const DEFAULT: u32 = 0x1f80;

fn set_control_word(word: u32) {
    // It changes how this thread calculates, which is what is tested.
    unsafe { asm!("ldmxcsr [{}]", in(reg) &raw const word, options(nostack, readonly)) };
}

/// Runs in a thread of its own, between a change of the mode and its return. Nothing else calculates there.
fn under<T: Send + 'static>(word: u32, work: impl FnOnce() -> T + Send + 'static) -> T {
    let worker = thread::spawn(move || {
        set_control_word(word);
        let result = work();
        set_control_word(DEFAULT);
        result
    });
    worker.join().expect("the thread ends")
}

fn case() -> Case {
    let mixture = Mixture::pure(Substance::new(12.65, 6.0, 3.74, 153.5));
    let state = State::with_density(301.0, 0.005, vec![1.0]);
    Case::new(Perturbation::WeeksChandlerAndersen, mixture, state).unwrap()
}

#[test]
fn the_default_mode_is_fit() {
    assert_eq!(self_check(), Ok(()));
    // The flags of what happened before, the low six bits, do not matter.
    assert_eq!(under(DEFAULT | 0x3f, self_check), Ok(()));
}

#[test]
fn flush_to_zero_is_refused() {
    for word in [DEFAULT | 0x8000, DEFAULT | 0x0040, DEFAULT | 0x8040] {
        assert_eq!(under(word, self_check), Err(Fault::Subnormals));
    }
}

#[test]
fn another_rounding_is_refused() {
    for word in [DEFAULT | 0x2000, DEFAULT | 0x4000, DEFAULT | 0x6000] {
        assert_eq!(under(word, self_check), Err(Fault::Rounding));
    }
}

#[test]
fn traps_are_refused() {
    // Invalid operations, and inexact ones.
    for word in [DEFAULT & !0x0080, DEFAULT & !0x1000] {
        assert_eq!(under(word, self_check), Err(Fault::Traps));
    }
}

#[test]
fn every_call_refuses() {
    let unfit = Refusal::Unfit(Fault::Subnormals);
    // Also where a thread in its default mode has had the whole check before.
    assert!(energies(&case()).is_ok());
    let case = case();
    let calls = move || {
        let on_bytes = [bytes::run_energies(&[], &mut []), bytes::run_slopes(&[], &mut [])];
        let single = (energies(&case), ends(&case), slopes(&case), pressure(&case));
        let moves = [to_version_2, to_version_1].map(|call| call(&case.record()));
        (single, run_ends(slice::from_ref(&case)), on_bytes, moves)
    };
    let single = (Err(unfit), Err(unfit), Err(unfit), Err(unfit));
    let moves = [Err(unfit), Err(unfit)];
    let expected = (single, vec![Err(unfit)], [Err(Fault::Subnormals); 2], moves);
    assert_eq!(under(DEFAULT | 0x8040, calls), expected);
    assert!(unfit.to_string().contains("flush-to-zero"));
    assert_eq!(unfit.code(), None);
}
