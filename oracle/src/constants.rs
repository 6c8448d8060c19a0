//! The constants of document 01's recipes for ln, ln_1p and exp.

/// The double of ln 2.
pub const L: f64 = std::f64::consts::LN_2;
/// The double of log2(e).
pub const E: f64 = std::f64::consts::LOG2_E;
/// ln 2 in two parts, so that k × H is exact for the k that exp meets; document 01's digits.
#[allow(clippy::excessive_precision)]
pub const H: f64 = 6.93147180369123816490e-01;
#[allow(clippy::excessive_precision)]
pub const G: f64 = 1.90821492927058770002e-10;

/// The doubles of 1/(2k+1), k 0..12; a division rounds once, so each is the nearest double.
pub const ODD_RECIPROCALS: [f64; 13] = {
    let mut c = [0.0; 13];
    let mut k = 0;
    while k < 13 {
        c[k] = 1.0 / (2 * k + 1) as f64;
        k += 1;
    }
    c
};

/// The doubles of 1/j!, j 0..13; 13! is below 2^53, so each factorial is exact.
pub const FACTORIAL_RECIPROCALS: [f64; 14] = {
    let mut c = [1.0; 14];
    let mut factorial = 1;
    let mut j = 1;
    while j < 14 {
        factorial *= j;
        c[j] = 1.0 / factorial as f64;
        j += 1;
    }
    c
};

/// The m and e of v = m × 2^e with 0.75 ≤ m < 1.5, for a positive double; exact.
pub fn mantissa_and_exponent(v: f64) -> (f64, i32) {
    if v < f64::MIN_POSITIVE {
        let (m, e) = mantissa_and_exponent(v * power_of_two(54));
        return (m, e - 54);
    }
    let exponent = (v.to_bits() >> 52) as i32 - 1023;
    let fraction = v.to_bits() & ((1 << 52) - 1);
    let m = f64::from_bits(1023 << 52 | fraction);
    if m < 1.5 { (m, exponent) } else { (m / 2.0, exponent + 1) }
}

/// 2^k for a k in −1022..1023.
pub fn power_of_two(k: i32) -> f64 {
    f64::from_bits(((k + 1023) as u64) << 52)
}
