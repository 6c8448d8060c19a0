//! What a thread meets while it works a reading, and how it chooses its roots.

use super::big::Big;
use super::roots::Choice;
use crate::random::Random;
use crate::range::Range;
use std::cell::{Cell, RefCell};

#[derive(Clone, Copy, Debug, Default, PartialEq)]
pub struct Notes {
    /// Values compared with the range of the same place,
    pub places: u64,
    /// and those of them that do not lie within it.
    pub outside: u64,
    pub roots: u64,
    /// Cases that the enclosure of an argument leaves open. What is worked after one says nothing.
    pub undecided: u64,
    /// Divisors of 0 and arguments without a rule.
    pub without_result: u64,
}

thread_local! {
    static NOTES: Cell<Notes> = const { Cell::new(NONE) };
    static ROOTS: RefCell<Option<(Choice, Random)>> = const { RefCell::new(None) };
}

const NONE: Notes = Notes { places: 0, outside: 0, roots: 0, undecided: 0, without_result: 0 };

/// Works readings with these roots; the seed is that of a choice by chance.
pub fn with_roots<T>(choice: Choice, seed: u64, work: impl FnOnce() -> T) -> (T, Notes) {
    NOTES.set(NONE);
    ROOTS.set(Some((choice, Random::new(seed))));
    let result = work();
    ROOTS.set(None);
    (result, NOTES.get())
}

fn note(change: impl FnOnce(&mut Notes)) {
    let mut notes = NOTES.get();
    change(&mut notes);
    NOTES.set(notes);
}

pub fn undecided() {
    note(|notes| notes.undecided += 1);
}

pub fn without_result() {
    note(|notes| notes.without_result += 1);
}

pub fn place(within: bool) {
    note(|notes| {
        notes.places += 1;
        notes.outside += !within as u64;
    });
}

/// A root anew, for the range that the rules give it.
pub fn root(range: Range) -> Big {
    note(|notes| notes.roots += 1);
    ROOTS.with_borrow_mut(|roots| {
        let (choice, random) = roots.as_mut().expect("a root is worked within with_roots");
        choice(range, random)
    })
}
