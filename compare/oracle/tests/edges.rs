//! Document 01's table 'Values at the edges', row by row; row 11 as document 02's #105 has it. Then where #110's parameters end.

use compare::kernels::NAN;
use oracle::rand_distr::Distribution;
use oracle::{Lent, Outcome, Positions, Refusal, K};

const START: Positions = Positions {
    uniforms: 0,
    normals: 0,
    exponentials: 0,
};

fn uniforms(uniforms: &[f64]) -> Lent<'_> {
    Lent {
        uniforms,
        ..Lent::default()
    }
}

fn exponentials(exponentials: &[f64]) -> Lent<'_> {
    Lent {
        exponentials,
        ..Lent::default()
    }
}

fn used(uniforms: usize, normals: usize, exponentials: usize) -> Positions {
    Positions {
        uniforms,
        normals,
        exponentials,
    }
}

#[track_caller]
fn gives<D: Distribution<K>>(made: Result<D, Refusal>, lent: Lent, value: f64, at: Positions) {
    let answer = Ok(value.to_bits());
    assert_eq!(oracle::sample(made, lent, START), Outcome { answer, at });
}

#[track_caller]
fn refuses<D: Distribution<K>>(
    made: Result<D, Refusal>,
    lent: Lent,
    number: u32,
    kind: u32,
    index: usize,
) {
    let answer = Err(Refusal {
        number,
        kind,
        index,
    });
    let at = START;
    assert_eq!(oracle::sample(made, lent, START), Outcome { answer, at });
}

#[track_caller]
fn gives_vector(alpha: &[f64], lent: Lent, vector: &[f64], at: Positions) {
    let mut cells = vec![u64::MAX; alpha.len()];
    let outcome = oracle::vector(oracle::dirichlet(alpha), lent, START, &mut cells);
    let answer = Ok(());
    assert_eq!(outcome, Outcome { answer, at });
    let words: Vec<u64> = vector.iter().map(|x| x.to_bits()).collect();
    assert_eq!(cells, words);
}

#[test]
fn row_01_beta_1_1() {
    gives(
        oracle::beta(1.0, 1.0),
        uniforms(&[0.5, 0.5]),
        0.5,
        used(2, 0, 0),
    );
}

#[test]
fn row_02_beta_2_5() {
    gives(
        oracle::beta(2.0, 5.0),
        uniforms(&[0.5, 0.5]),
        2.0 / 7.0,
        used(2, 0, 0),
    );
}

#[test]
fn row_03_beta_5_2() {
    gives(
        oracle::beta(5.0, 2.0),
        uniforms(&[0.5, 0.5]),
        5.0 / 7.0,
        used(2, 0, 0),
    );
}

#[test]
fn row_04_beta_half_half() {
    let lent = uniforms(&[0.9375, 0.9375, 0.5, 0.5]);
    gives(oracle::beta(0.5, 0.5), lent, 0.5, used(4, 0, 0));
}

#[test]
fn row_05_beta_by_a_nan_that_accepts() {
    gives(
        oracle::beta(1e200, 1e200),
        uniforms(&[0.5, 0.5]),
        0.5,
        used(2, 0, 0),
    );
}

#[test]
fn row_06_gamma_2_1() {
    let lent = Lent {
        uniforms: &[0.5],
        normals: &[-4.0, 0.0],
        exponentials: &[],
    };
    let d = 2.0 - 1.0 / 3.0;
    gives(oracle::gamma(2.0, 1.0), lent, d, used(1, 2, 0));
}

#[test]
fn row_07_gamma_1_2() {
    gives(
        oracle::gamma(1.0, 2.0),
        exponentials(&[1.0]),
        2.0,
        used(0, 0, 1),
    );
}

#[test]
fn row_08_student_1() {
    let lent = Lent {
        normals: &[3.0, 2.0],
        ..Lent::default()
    };
    gives(oracle::student_t(1.0), lent, 1.5, used(0, 2, 0));
}

#[test]
fn row_09_dirichlet_by_gammas() {
    gives_vector(
        &[1.0, 1.0],
        exponentials(&[1.0, 3.0]),
        &[0.25, 0.75],
        used(0, 0, 2),
    );
}

#[test]
fn row_10_dirichlet_by_betas() {
    gives_vector(
        &[0.1, 0.1],
        uniforms(&[0.5, 0.5]),
        &[0.5, 0.5],
        used(2, 0, 0),
    );
}

#[test]
fn row_11_gamma_infinite_shape_unusable_draw() {
    let made = oracle::gamma(f64::INFINITY, 1.0);
    refuses(made, exponentials(&[0.0]), 18, 3, 0);
}

#[test]
fn row_12_chi_squared_smallest_subnormal() {
    let smallest = f64::from_bits(1);
    refuses(oracle::chi_squared(smallest), Lent::default(), 5, 0, 0);
    let lent = Lent {
        uniforms: &[0.5],
        normals: &[0.0],
        exponentials: &[1.0],
    };
    refuses(oracle::chi_squared(smallest), lent, 5, 0, 0);
}

#[test]
fn row_13_pert_0_10() {
    let made = oracle::pert_with_mode(0.0, 10.0, None, 5.0);
    gives(made, uniforms(&[0.5, 0.5]), 5.0, used(2, 0, 0));
}

#[test]
fn row_14_beta_absent_draw() {
    refuses(oracle::beta(1.0, 1.0), uniforms(&[0.5]), 19, 1, 1);
}

#[test]
fn row_15_beta_unusable_draw() {
    refuses(oracle::beta(1.0, 1.0), uniforms(&[0.5, 1.0]), 18, 1, 1);
}

#[test]
fn beta_on_either_side_of_what_is_covered() {
    let nan = f64::from_bits(NAN);
    // Half a step of MAX is 2^970: with less, the sum is still MAX.
    let half_step = f64::from_bits(0x7c90_0000_0000_0000);
    let less = f64::from_bits(0x7c8f_ffff_ffff_ffff);
    for (alpha, beta, value) in [
        (f64::from_bits(1), 1.0, nan),
        (1e308, 1e308, nan),
        (f64::MAX, less, 1.0),
        (f64::MAX, half_step, nan),
    ] {
        gives(
            oracle::beta(alpha, beta),
            uniforms(&[0.5, 0.5]),
            value,
            used(2, 0, 0),
        );
    }
}
