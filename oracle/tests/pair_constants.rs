//! M-104's l_ij: the combined sigma in every arithmetic, and the answers.

use oracle::answer::{answer_ends, answer_energies, answer_slopes};
use oracle::double::Double;
use oracle::dual::Dual;
use oracle::range::Range;
use oracle::reading::Reading;
use oracle::reading::notes::with_roots;
use oracle::reading::roots::POLICIES;
use oracle::record::{Case, pairs};
use oracle::{over_doubles, over_ranges, over_readings, over_slopes};

const SIGMA: [f64; 3] = [3.1, 3.7, 4.3];

/// Three components, with l_ij of (0, 1), (0, 2) and (1, 2) in version 2, and without in version 1.
fn case(l_ij: Option<[f64; 3]>) -> Case {
    Case {
        perturbation: 1,
        substances: SIGMA.map(|sigma| [12.26, 6.0, sigma, 118.0]).to_vec(),
        k_ij: vec![0.01, 0.02, 0.03],
        l_ij: l_ij.map(Vec::from),
        temperature: 310.0,
        partial_density: vec![0.001; 3],
        molefracs: vec![0.25, 0.25, 0.5],
    }
}

/// The sigma of components 0 and 1, the same from both sides, with this l_ij.
macro_rules! sigma {
    ($text:ident, $l_ij:expr) => {{
        // Other parameters are roots, which a reading has to choose.
        let combine = || $text::combined(&case(Some([$l_ij, 0.0, 0.0])));
        let (p, _) = with_roots(POLICIES[0].1, 1, combine);
        assert_eq!(p.sigma_ij[(0, 1)], p.sigma_ij[(1, 0)]);
        p.sigma_ij[(0, 1)]
    }};
}

#[test]
fn an_l_ij_of_zero_adds_no_operation() {
    for zero in [0.0, -0.0] {
        let mean = Double::point(0.5) * (Double::point(3.1) + Double::point(3.7));
        assert_eq!(sigma!(over_doubles, zero), mean);
        let mean = Range::point(0.5) * (Range::point(3.1) + Range::point(3.7));
        assert_eq!(sigma!(over_ranges, zero), mean);
        let mean = Dual::point(0.5) * (Dual::point(3.1) + Dual::point(3.7));
        assert_eq!(sigma!(over_slopes, zero).value().to_bits(), mean.value().to_bits());
        let mean = Reading::point(0.5) * (Reading::point(3.1) + Reading::point(3.7));
        assert_eq!(sigma!(over_readings, zero), mean);
    }
}

/// Also for one so small that 1 less it is 1: the ends move, and the exact reading is another one.
#[test]
fn any_other_l_ij_adds_a_difference_and_a_product() {
    for l_ij in [0.1, -0.1, 0.5, -0.5, f64::from_bits(1)] {
        let mean = Double::point(0.5) * (Double::point(3.1) + Double::point(3.7));
        let sigma = (Double::point(1.0) - Double::point(l_ij)) * mean;
        assert_eq!(sigma!(over_doubles, l_ij), sigma);
        let dual = sigma!(over_slopes, l_ij);
        assert_eq!((dual.value(), dual.slope()), (sigma.value(), 0.0));
        let mean = Range::point(0.5) * (Range::point(3.1) + Range::point(3.7));
        let range = (Range::point(1.0) - Range::point(l_ij)) * mean;
        assert_eq!(sigma!(over_ranges, l_ij), range);
        assert!(range.lower < sigma.value() && sigma.value() < range.upper);
        let mean = Reading::point(0.5) * (Reading::point(3.1) + Reading::point(3.7));
        let reading = (Reading::point(1.0) - Reading::point(l_ij)) * mean;
        assert_eq!(sigma!(over_readings, l_ij), reading);
        assert_ne!(reading.exact(), mean.exact());
    }
}

#[test]
fn each_pair_has_its_own() {
    let with = over_doubles::combined(&case(Some([0.1, -0.0, -0.2])));
    let without = over_doubles::combined(&case(None));
    let sigma = |pair| with.sigma_ij[pair].value() / without.sigma_ij[pair].value();
    assert_eq!([(0, 1), (1, 0), (0, 2), (2, 1)].map(sigma), [0.9, 0.9, 1.0, 1.2]);
    for (i, &own) in SIGMA.iter().enumerate() {
        assert_eq!(with.sigma_ij[(i, i)].value(), own);
        for j in 0..3 {
            assert_eq!(with.eps_k_ij[(i, j)], without.eps_k_ij[(i, j)]);
        }
    }
}

fn answers(case: &Case) -> [[u8; 52]; 3] {
    [answer_energies, answer_ends, answer_slopes].map(|call| {
        let mut answer = [0; 52];
        assert_eq!(call(&case.record(), &mut answer), 0);
        answer
    })
}

#[test]
fn zeros_have_the_answers_of_version_1_and_others_have_not() {
    for perturbation in [0, 1, 2] {
        for n in [1, 3] {
            let first = Case {
                perturbation,
                substances: case(None).substances[..n].to_vec(),
                k_ij: vec![0.01; pairs(n)],
                partial_density: vec![0.001; n],
                molefracs: vec![1.0 / n as f64; n],
                ..case(None)
            };
            let second = |l_ij| Case { l_ij: Some(vec![l_ij; pairs(n)]), ..first.clone() };
            assert_eq!(answers(&second(0.0)), answers(&first));
            assert_eq!(answers(&second(-0.0)), answers(&first));
            assert_eq!(answers(&second(0.1)) == answers(&first), n == 1);
        }
    }
}
