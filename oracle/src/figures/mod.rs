//! How many figures the ends of an energy certify, on a sample of argon and methane.

pub mod sample;
pub mod table;

/// Ends that are the same double certify all the figures that a double can have.
pub const MOST: usize = 17;

/// The largest d with 10^d × (upper − lower) not above the larger size of the two ends, that is
/// floor(−log10 of the relative width); 0 where the ends differ in sign.
pub fn certified(lower: f64, upper: f64) -> usize {
    if lower == upper {
        return MOST;
    }
    if lower <= 0.0 && upper >= 0.0 {
        return 0;
    }
    let size = lower.abs().max(upper.abs());
    let mut width = (upper - lower) * 10.0;
    let mut figures = 0;
    while width <= size && figures < MOST {
        width *= 10.0;
        figures += 1;
    }
    figures
}
