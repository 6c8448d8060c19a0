//! The big numbers of exact readings against doubles, whole numbers and their own inverses, with
//! both roundings.

use oracle::constants::{mantissa_and_exponent, power_of_two};
use oracle::random::Random;
use oracle::reading::big::{Big, Rounding, Rounding::Down, Rounding::Up};

type Operation = fn(Big, Big, Rounding) -> Big;

fn big(v: f64) -> Big {
    Big::from_double(v)
}

/// A finite double with any sign and exponent, zero and subnormals included.
fn any_double(random: &mut Random) -> f64 {
    let v = f64::from_bits(random.bits());
    let v = if random.once_in(8) { f64::from_bits(v.to_bits() & !(0x7ff << 52)) } else { v };
    if v.is_finite() { v } else { random.pick(&[0.0, -0.0, 1.0, -1.0]) }
}

/// A double of common size.
fn near_one(random: &mut Random) -> f64 {
    let sign = random.pick(&[1.0, -1.0]);
    sign * (0.5 + random.unit()) * power_of_two(random.below(61) as i32 - 30)
}

/// A whole number of 256 bits from its limbs; each half of a limb is a double.
fn whole(limbs: [u64; 4]) -> Big {
    let halves = limbs.into_iter().flat_map(|limb| [limb & 0xffff_ffff, limb >> 32]);
    halves.enumerate().fold(Big::ZERO, |sum, (at, half)| {
        exact(sum, big(half as f64).scaled(32 * at as i64), Big::add)
    })
}

/// Limbs at which carries and the digits of a quotient are hardest.
fn hard_limbs(random: &mut Random) -> [u64; 4] {
    let mut limb = || {
        let by_chance = random.bits();
        random.pick(&[0, 1, u64::MAX, u64::MAX - 1, 1 << 63, (1 << 63) - 1, by_chance])
    };
    [limb(), limb(), limb(), limb() | 1 << 63]
}

/// A result that needs no rounding.
fn exact(a: Big, b: Big, operation: Operation) -> Big {
    let [down, up] = [Down, Up].map(|rounding| operation(a, b, rounding));
    assert_eq!(down, up);
    down
}

fn next_above(v: Big, unit: i64) -> Big {
    exact(v, big(1.0).scaled(unit), Big::add)
}

#[test]
fn order_is_that_of_doubles() {
    let mut random = Random::new(1);
    for _ in 0..20_000 {
        let a = any_double(&mut random);
        let b = if random.once_in(4) { a.next_up() } else { any_double(&mut random) };
        if b.is_finite() {
            assert_eq!(big(a).partial_cmp(&big(b)), a.partial_cmp(&b), "{a:e} {b:e}");
            assert_eq!(-big(a), big(-a));
        }
    }
    assert_eq!(big(-0.0), Big::ZERO);
}

/// A double's operation is the exact result rounded to the nearest, so that the doubles on either
/// side of it lie on either side of the exact result.
#[test]
fn operations_beside_those_of_doubles() {
    type Pair = (Operation, fn(f64, f64) -> f64);
    let pairs: [Pair; 3] =
        [(Big::add, |a, b| a + b), (Big::mul, |a, b| a * b), (Big::div, |a, b| a / b)];
    let mut random = Random::new(2);
    for _ in 0..20_000 {
        let (a, b) = (near_one(&mut random), near_one(&mut random));
        for (ours, doubles) in pairs {
            let [down, up] = [Down, Up].map(|rounding| ours(big(a), big(b), rounding));
            let double = doubles(a, b);
            assert!(big(double.next_down()) < down && up < big(double.next_up()), "{a:e} {b:e}");
            assert!(down <= up);
        }
    }
}

#[test]
fn whole_numbers_are_exact() {
    let mut random = Random::new(3);
    for _ in 0..20_000 {
        let (a, b) = (random.bits() >> 11, random.bits() >> 11);
        let number = |v: u128| whole([v as u64, (v >> 64) as u64, 0, 0]);
        let (x, y) = (big(a as f64), big(b as f64));
        let (a, b) = (a as u128, b as u128);
        assert_eq!(exact(x, y, Big::mul), number(a * b));
        assert_eq!(exact(x, y, Big::add), number(a + b));
        assert_eq!(exact(number(a * b), y, Big::div), x);
        assert_eq!(exact(number(a * b), -x, Big::add), number(a * b - a));
        assert_eq!(exact(x, -y, Big::add), -exact(y, -x, Big::add));
    }
}

/// The rounded quotients, times the divisor, are on either side of the dividend, and next to each
/// other; so with the rounded product and its quotient.
#[test]
fn products_and_quotients_undo_each_other() {
    let mut random = Random::new(4);
    for _ in 0..50_000 {
        let (a, b) = (whole(hard_limbs(&mut random)), whole(hard_limbs(&mut random)));
        let [down, up] = [Down, Up].map(|rounding| a.div(b, rounding));
        assert!(down.mul(b, Up) <= a && a <= up.mul(b, Down));
        assert!(down == up || adjacent(down, up));
        let [down, up] = [Down, Up].map(|rounding| a.mul(b, rounding));
        assert!(down.div(b, Up) <= a && a <= up.div(b, Down));
        assert!(down == up || adjacent(down, up));
    }
}

/// Whether two numbers above 0 differ by a unit of the last of 256 bits.
fn adjacent(down: Big, up: Big) -> bool {
    next_above(down, top(down) - 255) == up
}

/// The exponent of the highest bit of a number above 0.
fn top(v: Big) -> i64 {
    let e = v.ln_exponent();
    if v < big(1.0).scaled(e) { e - 1 } else { e }
}

#[test]
fn sums_of_numbers_far_apart() {
    let one = big(1.0);
    for k in 1..=400 {
        let small = one.scaled(-k);
        let sum = [Down, Up].map(|rounding| one.add(small, rounding));
        let difference = [Down, Up].map(|rounding| one.add(-small, rounding));
        if k <= 255 {
            assert_eq!(sum[0], sum[1], "{k}");
            assert_eq!(exact(sum[0], -one, Big::add), small);
        } else {
            assert_eq!(sum, [one, next_above(one, -255)], "{k}");
        }
        if k <= 256 {
            assert_eq!(difference[0], difference[1], "{k}");
            assert_eq!(exact(one, -difference[0], Big::add), small);
        } else {
            assert_eq!(difference, [exact(one, -one.scaled(-256), Big::add), one], "{k}");
        }
    }
}

#[test]
fn rounding_up_can_carry_into_the_next_power() {
    let largest = whole([u64::MAX; 4]);
    let power = big(1.0).scaled(256);
    assert_eq!(largest.add(big(0.5), Down), largest);
    assert_eq!(largest.add(big(0.5), Up), power);
    assert_eq!(exact(largest, big(1.0), Big::add), power);
}

#[test]
fn down_of_a_number_is_up_of_its_negative() {
    let mut random = Random::new(5);
    for _ in 0..10_000 {
        let a = whole(hard_limbs(&mut random));
        let b = whole(hard_limbs(&mut random)).scaled(random.below(600) as i64 - 300);
        assert_eq!(-a.add(b, Down), (-a).add(-b, Up));
        assert_eq!(-a.add(-b, Down), (-a).add(b, Up));
        assert_eq!(-a.mul(b, Down), a.mul(-b, Up));
        assert_eq!(-a.div(b, Down), (-a).div(b, Up));
        let [down, up] = [Down, Up].map(|rounding| a.add(-b, rounding));
        assert!(down.add(b, Down) <= a && a <= up.add(b, Up));
    }
}

#[test]
fn floors_and_exponents() {
    let mut random = Random::new(6);
    for _ in 0..20_000 {
        let v = near_one(&mut random);
        assert_eq!(big(v).floor(), v.floor() as i64, "{v:e}");
        assert_eq!(big(v.trunc()).floor(), v.trunc() as i64);
        let size = any_double(&mut random).abs();
        if size > 0.0 {
            assert_eq!(big(size).ln_exponent(), mantissa_and_exponent(size).1 as i64);
        }
    }
    let third = big(1.0).div(big(3.0), Down);
    assert_eq!([third.floor(), (-third).floor(), Big::ZERO.floor()], [0, -1, 0]);
    assert_eq!([0.75, 1.0, 1.5_f64.next_down(), 1.5].map(|v| big(v).ln_exponent()), [0, 0, 0, 1]);
}
