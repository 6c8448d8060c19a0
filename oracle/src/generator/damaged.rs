//! Records with damaged bytes. The length still counts what follows it, so that a run reads on.

use super::{limits, realistic, wide};
use crate::random::Random;
use crate::record::framed;

pub fn record(random: &mut Random) -> Vec<u8> {
    let make = random.pick(&[realistic::case, wide::case, limits::case]);
    let mut body = make(random).record().split_off(2);
    let damages = [flip, cut, extend, change_head, change_version, change_pairs, replace];
    let damage = random.pick(&damages);
    damage(random, &mut body);
    framed(&body)
}

/// Flips a few bits; a `Vec`, as for the others, which change its length.
#[allow(clippy::ptr_arg)]
fn flip(random: &mut Random, body: &mut Vec<u8>) {
    for _ in 0..1 + random.below(4) {
        let at = random.below(body.len());
        body[at] ^= 1 << random.below(8);
    }
}

fn cut(random: &mut Random, body: &mut Vec<u8>) {
    body.truncate(random.below(body.len()));
}

fn extend(random: &mut Random, body: &mut Vec<u8>) {
    for _ in 0..1 + random.below(16) {
        body.push(random.bits() as u8);
    }
}

/// Another version, perturbation or number of components.
#[allow(clippy::ptr_arg)]
fn change_head(random: &mut Random, body: &mut Vec<u8>) {
    let at = random.below(3);
    body[at] = random.pick(&[0, 1, 2, 3, 4, 8, 9, 16, 255]);
}

/// A version on the body of its own or of another one.
#[allow(clippy::ptr_arg)]
fn change_version(random: &mut Random, body: &mut Vec<u8>) {
    body[0] = random.pick(&[0, 1, 2, 3]);
}

/// A constant of a pair too few or too many. One component has none: then its temperature is missing.
fn change_pairs(random: &mut Random, body: &mut Vec<u8>) {
    let first = 3 + 32 * usize::from(body[2]);
    let (removed, added) = random.pick(&[(8, &[][..]), (0, &[0; 8])]);
    body.splice(first..first + removed, added.iter().copied());
}

/// Bytes of no meaning, few of them.
fn replace(random: &mut Random, body: &mut Vec<u8>) {
    let length = random.below(9);
    *body = (0..length).map(|_| random.pick(&[0, 1, 2, 3, 8, 9, 255])).collect();
}
