//! Whole numbers of a fixed number of 64-bit limbs, the lowest first, as far as `Big` needs them.

/// Limbs of a mantissa: 256 bits.
pub const LIMBS: usize = 4;
/// Limbs of a result before it is rounded: two mantissas and one limb for a carry.
pub const WIDE: usize = 2 * LIMBS + 1;

pub type Mantissa = [u64; LIMBS];
pub type Wide = [u64; WIDE];

/// The zero bits above the highest 1.
pub fn leading_zeros<const N: usize>(a: &[u64; N]) -> usize {
    let mut at = N;
    while at > 0 && a[at - 1] == 0 {
        at -= 1;
    }
    if at == 0 { 64 * N } else { 64 * (N - at) + a[at - 1].leading_zeros() as usize }
}

/// The limb that begins at this bit; bits outside the number are 0.
fn limb_from<const N: usize>(a: &[u64; N], bit: isize) -> u64 {
    let (at, shift) = (bit.div_euclid(64), bit.rem_euclid(64));
    let limb = |k: isize| usize::try_from(k).ok().and_then(|k| a.get(k)).copied().unwrap_or(0);
    if shift == 0 { limb(at) } else { limb(at) >> shift | limb(at + 1) << (64 - shift) }
}

/// The bits from `from` on, as another number; from below 0 it is a shift to the left.
pub fn bits_from<const N: usize, const M: usize>(a: &[u64; N], from: isize) -> [u64; M] {
    std::array::from_fn(|k| limb_from(a, from + 64 * k as isize))
}

/// Whether a bit below this one is 1.
pub fn any_below<const N: usize>(a: &[u64; N], bit: usize) -> bool {
    let (whole, part) = (bit / 64, bit % 64);
    a[..whole].iter().any(|&limb| limb != 0) || (part > 0 && a[whole] << (64 - part) != 0)
}

/// a + b; a carry past the highest limb is returned.
pub fn add<const N: usize>(a: &mut [u64; N], b: &[u64; N]) -> bool {
    let mut carry = false;
    for (a, b) in a.iter_mut().zip(b) {
        let (sum, first) = a.overflowing_add(*b);
        let (sum, second) = sum.overflowing_add(carry as u64);
        (*a, carry) = (sum, first || second);
    }
    carry
}

/// a − b, for b not above a.
pub fn subtract<const N: usize>(a: &mut [u64; N], b: &[u64; N]) {
    let mut borrow = false;
    for (a, b) in a.iter_mut().zip(b) {
        let (rest, first) = a.overflowing_sub(*b);
        let (rest, second) = rest.overflowing_sub(borrow as u64);
        (*a, borrow) = (rest, first || second);
    }
    debug_assert!(!borrow);
}

/// The whole product.
pub fn product(a: &Mantissa, b: &Mantissa) -> Wide {
    let mut wide = [0; WIDE];
    for (i, &x) in a.iter().enumerate() {
        let mut carry = 0;
        for (j, &y) in b.iter().enumerate() {
            let sum = x as u128 * y as u128 + wide[i + j] as u128 + carry as u128;
            (wide[i + j], carry) = (sum as u64, (sum >> 64) as u64);
        }
        wide[i + LIMBS] = carry;
    }
    wide
}

/// The whole quotient of a × 2^256 by b, in LIMBS + 1 limbs, and whether something is left over.
/// Both mantissas have their highest bit set. Knuth's algorithm D, limb by limb.
pub fn quotient(a: &Mantissa, b: &Mantissa) -> ([u64; LIMBS + 1], bool) {
    let mut rest = [0; WIDE];
    rest[LIMBS..2 * LIMBS].copy_from_slice(a);
    let mut quotient = [0; LIMBS + 1];
    for at in (0..=LIMBS).rev() {
        let part = &mut rest[at..=at + LIMBS];
        let mut digit = estimate(part, b);
        if subtract_multiple(part, b, digit) {
            // The estimate can be one too large, and rarely two.
            digit -= 1;
            while !add_back(part, b) {
                digit -= 1;
            }
        }
        quotient[at] = digit;
    }
    (quotient, rest.iter().any(|&limb| limb != 0))
}

/// The digit by the two highest limbs of the rest: not below the true one, and at most two above.
fn estimate(rest: &[u64], b: &Mantissa) -> u64 {
    let high = (rest[LIMBS] as u128) << 64 | rest[LIMBS - 1] as u128;
    (high / b[LIMBS - 1] as u128).min(u64::MAX as u128) as u64
}

/// rest − digit × b, and whether that is below 0; then the limbs are those modulo 2^320.
fn subtract_multiple(rest: &mut [u64], b: &Mantissa, digit: u64) -> bool {
    let mut carry = 0;
    for (at, &limb) in b.iter().enumerate() {
        let product = digit as u128 * limb as u128 + carry as u128;
        let (left, borrow) = rest[at].overflowing_sub(product as u64);
        rest[at] = left;
        carry = (product >> 64) as u64 + borrow as u64;
    }
    let (left, borrow) = rest[LIMBS].overflowing_sub(carry);
    rest[LIMBS] = left;
    borrow
}

/// rest + b, and whether that comes to 0 or above again.
fn add_back(rest: &mut [u64], b: &Mantissa) -> bool {
    let mut part: Mantissa = std::array::from_fn(|k| rest[k]);
    let carry = add(&mut part, b);
    rest[..LIMBS].copy_from_slice(&part);
    let (sum, over) = rest[LIMBS].overflowing_add(carry as u64);
    rest[LIMBS] = sum;
    over
}
