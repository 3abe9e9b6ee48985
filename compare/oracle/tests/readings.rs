//! The readings of document 01 that the Rust decides, and #105 of document 02, each where another reading would answer otherwise.

use compare::kernels::{ln, NAN};
use oracle::rand_distr::{Beta, BetaFields, Gamma, GammaFields};
use oracle::{Lent, Outcome, Positions, Refusal, K};

const ONE: f64 = 1.0;
const START: Positions = Positions {
    uniforms: 0,
    normals: 0,
    exponentials: 0,
};

// The float that lies `steps` above x, for an x above 0.
fn moved(x: f64, steps: i64) -> f64 {
    f64::from_bits(x.to_bits().wrapping_add_signed(steps))
}

fn large(scale: f64, c: f64, d: f64) -> Gamma<K> {
    let (scale, c, d) = (K(scale), K(c), K(d));
    Gamma::from_fields(GammaFields::Large { scale, c, d })
}

fn sampled(gamma: Gamma<K>, normals: &[f64], uniforms: &[f64]) -> Outcome<u64> {
    let lent = Lent {
        uniforms,
        normals,
        exponentials: &[],
    };
    oracle::sample(Ok(gamma), lent, START)
}

// BB with a = 0, so that w is 0 and r = s = gamma·v - ln 4. alpha = b, so that step 4 compares r itself.
fn bb(gamma: f64) -> Beta<K> {
    Beta::from_fields(BetaFields::Bb {
        switched: false,
        a: K(0.0),
        b: K(1.0),
        alpha: K(1.0),
        beta: K(1.0),
        gamma: K(gamma),
    })
}

fn bc(kappa1: f64, kappa2: f64) -> Beta<K> {
    Beta::from_fields(BetaFields::Bc {
        switched: true,
        a: K(1.0),
        b: K(1.0),
        alpha: K(2.0),
        beta: K(1.0),
        kappa1: K(kappa1),
        kappa2: K(kappa2),
    })
}

// Two uniforms are one trial: if it isn't accepted, the third is absent.
fn accepted(beta: Beta<K>, u1: f64, u2: f64) -> bool {
    let lent = Lent {
        uniforms: &[u1, u2],
        ..Lent::default()
    };
    let outcome = oracle::sample(Ok(beta), lent, START);
    let absent = Refusal {
        number: 19,
        kind: 1,
        index: 2,
    };
    match outcome.answer {
        Ok(_) => true,
        Err(refusal) => {
            assert_eq!(refusal, absent);
            false
        }
    }
}

#[test]
fn an_exponential_is_usable_only_above_zero() {
    let sampled = |shape: f64, scale: f64, exponential: f64| {
        let lent = Lent {
            exponentials: &[exponential],
            ..Lent::default()
        };
        oracle::sample(oracle::gamma(shape, scale), lent, START)
    };
    let unusable = Refusal {
        number: 18,
        kind: 3,
        index: 0,
    };
    for zero in [0.0, -0.0] {
        for (shape, scale) in [(1.0, 2.0), (f64::INFINITY, 1.0)] {
            let outcome = sampled(shape, scale, zero);
            assert_eq!((outcome.answer, outcome.at), (Err(unusable), START));
        }
    }
    let infinity = f64::INFINITY;
    for (shape, scale, value) in [(1.0, 2.0, 2), (infinity, 1.0, infinity.to_bits())] {
        let outcome = sampled(shape, scale, f64::from_bits(1));
        assert_eq!(outcome.answer, Ok(value));
        assert_eq!(outcome.at.exponentials, 1);
    }
}

#[test]
fn a_nan_w_reads_its_uniform() {
    // 0.5 < 1 - 0 accepts, so that the value is NaN.
    let outcome = sampled(large(1.0, f64::NAN, 1.0), &[0.0], &[0.5]);
    assert_eq!(outcome.answer, Ok(NAN));
    assert_eq!((outcome.at.uniforms, outcome.at.normals), (1, 1));
    // Where the first test fails, the second is false on a NaN: the next trial wants its normal.
    let outcome = sampled(large(1.0, f64::NAN, 1.0), &[9.0], &[0.5]);
    let absent = Refusal {
        number: 19,
        kind: 2,
        index: 1,
    };
    assert_eq!(outcome.answer, Err(absent));
    assert_eq!(outcome.at, START);
}

#[test]
fn w_of_zero_reads_no_uniform() {
    let outcome = sampled(large(1.0, 1.0, 1.0), &[-1.0, 0.0], &[0.5]);
    assert_eq!(outcome.answer, Ok(1.0f64.to_bits()));
    assert_eq!((outcome.at.uniforms, outcome.at.normals), (1, 2));
}

#[test]
fn order_of_gammas_first_test() {
    // A c of NaN leaves the first test alone.
    let accepts = |x: f64, u: f64| {
        let outcome = sampled(large(1.0, f64::NAN, 1.0), &[x], &[u]);
        outcome.answer.is_ok()
    };
    let (mut above, mut below) = (0, 0);
    for step in 0..1000 {
        let x = 1.0 + f64::from(step) / 1024.0;
        let square = x * x;
        let left = 1.0 - (0.0331 * square) * square;
        let right = 1.0 - 0.0331 * (square * square);
        if left > right {
            assert!(accepts(x, right), "x = {x}");
            above += 1;
        }
        if left < right {
            assert!(!accepts(x, left), "x = {x}");
            below += 1;
        }
    }
    assert!(above > 0 && below > 0);
}

#[test]
fn order_of_betas_second_step() {
    // Near z = 1/5 the line of step 2 touches the curve of step 3, so that only rounding tells them apart.
    let u1 = 0.75;
    let v = ln(u1 / (1.0 - u1));
    let mut seen = 0;
    for step in 0..64 {
        let u2 = moved(0.2 / (u1 * u1), step);
        for turn in -64..64 {
            let gamma = -moved((ln(5.0) - ln(4.0)) / v, turn);
            let z = u1 * u1 * u2;
            let s = gamma * v - ln(4.0);
            let left = s + ONE + ln(5.0) >= 5.0 * z;
            let right = s + (ONE + ln(5.0)) >= 5.0 * z;
            if s < ln(z) && left != right {
                assert_eq!(accepted(bb(gamma), u1, u2), left);
                seen += 1;
            }
        }
    }
    assert!(seen > 0);
}

#[test]
fn order_of_bcs_steps() {
    // z at most 1/4 is accepted by step 3 before step 4 could reject it.
    assert!(accepted(bc(0.0, 0.0), 0.5, 0.5));
    // Above 1/4 step 4 rejects at kappa2 itself.
    let z = 0.75 * 0.75 * 0.5;
    assert!(!accepted(bc(0.0, z), 0.75, 0.5));
    assert!(accepted(bc(0.0, moved(z, 1)), 0.75, 0.5));
    // Below 1/2 step 2 rejects at kappa1 itself, and a NaN kappa1 rejects nothing.
    let (u1, u2) = (0.375, 0.625);
    let y = u1 * u2;
    let left = 0.25 * u2 + u1 * y - y;
    assert!(!accepted(bc(left, 0.0), u1, u2));
    assert!(accepted(bc(moved(left, 1), 0.0), u1, u2));
    assert!(accepted(bc(f64::NAN, 0.0), u1, u2));
}

#[test]
fn powf_has_no_cases() {
    use num_traits::Float;
    let infinity = f64::INFINITY;
    for (u, y) in [(1.0, infinity), (0.0, 0.0), (infinity, 0.0), (-2.0, 2.0)] {
        let power = K(u).powf(K(y));
        assert_eq!(oracle::bits(power), NAN, "powf({u}, {y})");
    }
}

#[test]
fn pert_over_all_numbers() {
    let made = oracle::pert_with_mode(-f64::MAX, f64::MAX, None, 0.0);
    assert_eq!(made, Err(Refusal::plain(8)));
}

#[test]
fn dirichlet_scans_element_by_element() {
    let made = oracle::dirichlet(&[f64::INFINITY, 0.0]);
    assert_eq!(made, Err(Refusal::of_element(13, 0)));
}

#[test]
fn ln_4_is_the_kernels() {
    // With gamma = 0, r = s = -ln 4: step 3 accepts while ln z is at most that, and step 4 rejects from there on.
    let u1 = 0.5f64.sqrt();
    let (mut at, mut past) = (0, 0);
    for step in -8..8 {
        let u2 = moved(0.5, step);
        let z = u1 * u1 * u2;
        assert_eq!(accepted(bb(0.0), u1, u2), ln(z) <= -ln(4.0), "u2 = {u2}");
        at += usize::from(ln(z).to_bits() == (-ln(4.0)).to_bits());
        past += usize::from(ln(z).to_bits() == moved(ln(4.0), -1).to_bits() | 1 << 63);
    }
    // Accepted at -ln 4 and rejected one step above it: no other number than ln 4 does that.
    assert!(at > 0 && past > 0);
}

#[test]
fn ln_5_is_not_above_the_kernels() {
    // The next number above ln 5 would accept where the Rust goes on. A number below shows nowhere: all that step 2 accepts,
    // step 3 would.
    let u1 = 0.75;
    let v = ln(u1 / (1.0 - u1));
    let mut seen = 0;
    for step in 0..64 {
        let u2 = moved(0.2 / (u1 * u1), step);
        for turn in -64..64 {
            let gamma = -moved((ln(5.0) - ln(4.0)) / v, turn);
            let z = u1 * u1 * u2;
            let s = gamma * v - ln(4.0);
            let accepts = |five: f64| s + ONE + five >= 5.0 * z;
            if s < ln(z) && !accepts(ln(5.0)) && accepts(moved(ln(5.0), 1)) {
                assert!(!accepted(bb(gamma), u1, u2));
                seen += 1;
            }
        }
    }
    assert!(seen > 0);
}
