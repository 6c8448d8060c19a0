//! The case record in its two versions: reading it with the checks 2 to 7, 12 and 8 in their order, and
//! writing it.

/// The code of a refusal, by the place of its check.
pub mod code {
    pub const ANSWER_BUFFER: u8 = 1;
    pub const ENVELOPE: u8 = 2;
    pub const VERSION: u8 = 3;
    pub const PERTURBATION: u8 = 4;
    pub const COMPONENTS: u8 = 5;
    pub const SIZE: u8 = 6;
    pub const SUBSTANCES: u8 = 7;
    pub const STATE: u8 = 8;
    pub const ARITHMETIC: u8 = 9;
    pub const ENDS: u8 = 10;
    pub const SLOPES: u8 = 11;
    pub const ATTRACTION: u8 = 12;
    pub const PAIR_CONSTANT: u8 = 13;
}

/// The closed intervals of the fields; the first four are those of a substance.
pub mod interval {
    pub const REP: [f64; 2] = [8.0, 48.0];
    pub const ATT: [f64; 2] = [5.0, 7.0];
    pub const SIGMA: [f64; 2] = [0.5, 10.0];
    pub const EPSILON_K: [f64; 2] = [0.1, 5000.0];
    pub const SUBSTANCE: [[f64; 2]; 4] = [REP, ATT, SIGMA, EPSILON_K];
    pub const K_IJ: [f64; 2] = [-0.9, 0.9];
    pub const L_IJ: [f64; 2] = [-0.5, 0.5];
    pub const TEMPERATURE: [f64; 2] = [1.0, 5000.0];
    pub const DENSITY: [f64; 2] = [0.0, 2.0];
    pub const FRACTION: [f64; 2] = [0.0, 1.0];
    const TOLERANCE: f64 = 1.0 / (1u64 << 40) as f64;
    pub const FRACTION_SUM: [f64; 2] = [1.0 - TOLERANCE, 1.0 + TOLERANCE];
}

#[derive(Clone, Debug, PartialEq)]
pub struct Case {
    /// 0 BH, 1 WCA, 2 WCA-B3.
    pub perturbation: u8,
    /// rep, att, sigma, epsilon_k of each component.
    pub substances: Vec<[f64; 4]>,
    /// For i below j, row by row.
    pub k_ij: Vec<f64>,
    /// The same of l_ij, which version 2 has and version 1 has not (M-104).
    pub l_ij: Option<Vec<f64>>,
    pub temperature: f64,
    pub partial_density: Vec<f64>,
    pub molefracs: Vec<f64>,
}

/// How many pairs n components have.
pub fn pairs(n: usize) -> usize {
    (0..n).sum()
}

/// The number of doubles in a record of n components.
fn doubles(version: u8, n: usize) -> usize {
    let constants = if version == 1 { 1 } else { 2 };
    4 * n + constants * pairs(n) + 1 + 2 * n
}

/// The case in a whole record, or the first code that applies.
pub fn read(record: &[u8]) -> Result<Case, u8> {
    envelope(record, &[1, 2])?;
    let case = fields(&record[2..]);
    if !substances_pass(&case) {
        return Err(code::SUBSTANCES);
    }
    if !attraction_passes(&case) {
        return Err(code::ATTRACTION);
    }
    if !state_passes(&case) {
        return Err(code::STATE);
    }
    Ok(case)
}

/// The first of the codes 2 to 6 that applies to a record that has to be of one of these versions.
pub fn envelope(record: &[u8], versions: &[u8]) -> Result<(), u8> {
    if record.len() < 5 || length(record) != record.len() - 2 {
        return Err(code::ENVELOPE);
    }
    let [version, perturbation, n] = [record[2], record[3], record[4]];
    if !versions.contains(&version) {
        return Err(code::VERSION);
    }
    if perturbation > 2 {
        return Err(code::PERTURBATION);
    }
    if !(1..=8).contains(&n) {
        return Err(code::COMPONENTS);
    }
    if length(record) != 3 + 8 * doubles(version, n as usize) {
        return Err(code::SIZE);
    }
    Ok(())
}

/// The two bytes of length at the start of a record.
pub fn length(record: &[u8]) -> usize {
    u16::from_be_bytes([record[0], record[1]]) as usize
}

/// The whole records, or answers, one after the other.
pub fn split(mut rest: &[u8]) -> impl Iterator<Item = &[u8]> {
    std::iter::from_fn(move || {
        let size = if rest.len() < 2 { return None } else { length(rest) + 2 };
        let (first, after) = rest.split_at_checked(size)?;
        rest = after;
        Some(first)
    })
}

/// The case in what follows the length of a record that has passed the codes 2 to 6.
fn fields(body: &[u8]) -> Case {
    let [version, perturbation, n] = [body[0], body[1], body[2]];
    let n = n as usize;
    let mut values = body[3..]
        .chunks_exact(8)
        .map(|b| f64::from_be_bytes(b.try_into().expect("a chunk has 8 bytes")));
    let mut next = || values.next().expect("the size was checked");
    Case {
        perturbation,
        substances: (0..n).map(|_| [next(), next(), next(), next()]).collect(),
        k_ij: (0..pairs(n)).map(|_| next()).collect(),
        l_ij: (version == 2).then(|| (0..pairs(n)).map(|_| next()).collect()),
        temperature: next(),
        partial_density: (0..n).map(|_| next()).collect(),
        molefracs: (0..n).map(|_| next()).collect(),
    }
}

/// NaN lies in no interval.
fn lies_in(v: f64, [least, greatest]: [f64; 2]) -> bool {
    least <= v && v <= greatest
}

fn substances_pass(case: &Case) -> bool {
    let substance = |s: &[f64; 4]| s.iter().zip(interval::SUBSTANCE).all(|(&v, i)| lies_in(v, i));
    case.substances.iter().all(substance)
        && case.k_ij.iter().all(|&k| lies_in(k, interval::K_IJ))
        && case.l_ij.iter().flatten().all(|&l| lies_in(l, interval::L_IJ))
}

/// M-101: BH records need each att equal to 6.
fn attraction_passes(case: &Case) -> bool {
    case.perturbation != 0 || case.substances.iter().all(|s| s[1] == 6.0)
}

fn state_passes(case: &Case) -> bool {
    lies_in(case.temperature, interval::TEMPERATURE)
        && case.partial_density.iter().all(|&v| lies_in(v, interval::DENSITY))
        && case.molefracs.iter().all(|&v| lies_in(v, interval::FRACTION))
        && lies_in(vector_sum(&case.molefracs), interval::FRACTION_SUM)
}

fn vector_sum(values: &[f64]) -> f64 {
    values.iter().fold(0.0, |sum, v| sum + v)
}

impl Case {
    /// k_ij is sent for i below j and copied; that of a component with itself is never read.
    pub fn k_ij(&self, i: usize, j: usize) -> f64 {
        self.place(i, j).map_or(0.0, |place| self.k_ij[place])
    }

    /// The same of l_ij; that of version 1 is +0.
    pub fn l_ij(&self, i: usize, j: usize) -> f64 {
        self.place(i, j).zip(self.l_ij.as_ref()).map_or(0.0, |(place, l_ij)| l_ij[place])
    }

    /// The place of a pair of two components in their rows.
    fn place(&self, i: usize, j: usize) -> Option<usize> {
        let (n, row, column) = (self.substances.len(), i.min(j), i.max(j));
        (row < column).then(|| row * (2 * n - row - 1) / 2 + column - row - 1)
    }

    pub fn version(&self) -> u8 {
        if self.l_ij.is_some() { 2 } else { 1 }
    }

    /// The record of the case, which need not pass the checks.
    pub fn record(&self) -> Vec<u8> {
        let pairs = self.k_ij.iter().chain(self.l_ij.iter().flatten());
        let values = self.substances.iter().flatten().chain(pairs);
        let state = self.partial_density.iter().chain(&self.molefracs);
        let values = values.chain([&self.temperature]).chain(state);
        let n = self.substances.len() as u8;
        let mut body = vec![self.version(), self.perturbation, n];
        body.extend(values.flat_map(|v| v.to_be_bytes()));
        framed(&body)
    }
}

/// A body with its length before it.
pub fn framed(body: &[u8]) -> Vec<u8> {
    let length = u16::try_from(body.len()).expect("a record's length has two bytes");
    [&length.to_be_bytes(), body].concat()
}
