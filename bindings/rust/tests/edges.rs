//! Document 01's table 'Values at the edges', row by row, Gamma(inf, 1) as document 02's #105 has it; where #110's parameters end;
//! and the bits of every NaN.

mod common;

use common::{at, bits, exponentials, normals, uniforms, Sampler, NAN_BITS, START};
use ewebasket::{
    Beta, BetaAlgorithm, ChiSquared, Dirichlet, Draws, FisherF, Gamma, Kind, Pert, Positions,
    Refusal, StudentT,
};

#[track_caller]
fn gives(sampler: impl Sampler, draws: Draws, value: f64, after: Positions) {
    let (sample, positions) = sampler.sample(&draws, START).unwrap();
    assert_eq!((sample.to_bits(), positions), (value.to_bits(), after));
    let mut out = [9.0];
    assert_eq!(sampler.fill(&draws, START, &mut out), Ok(after));
    assert_eq!(out[0].to_bits(), value.to_bits());
}

#[track_caller]
fn gives_vector(alpha: &[f64], draws: Draws, vector: &[f64], after: Positions) {
    let dirichlet = Dirichlet::new(alpha).unwrap();
    let (sample, positions) = dirichlet.sample(&draws, START).unwrap();
    assert_eq!((bits(&sample), positions), (bits(vector), after));
}

#[track_caller]
fn refuses(sampler: impl Sampler, draws: Draws, number: usize, kind: Kind, index: usize) {
    let refusal = Refusal {
        number,
        kind: Some(kind),
        index: Some(index),
        positions: START,
    };
    assert_eq!(sampler.sample(&draws, START), Err(refusal));
    let mut out = [9.0; 2];
    assert_eq!(sampler.fill(&draws, START, &mut out), Err(refusal));
    assert_eq!(bits(&out), [0; 2]);
}

#[test]
fn rows_of_beta() -> Result<(), Refusal> {
    let halves = uniforms(&[0.5, 0.5]);
    gives(Beta::new(1.0, 1.0)?, halves, 0.5, at(2, 0, 0));
    gives(Beta::new(2.0, 5.0)?, halves, 2.0 / 7.0, at(2, 0, 0));
    gives(Beta::new(5.0, 2.0)?, halves, 5.0 / 7.0, at(2, 0, 0));
    let rejected_first = uniforms(&[0.9375, 0.9375, 0.5, 0.5]);
    gives(Beta::new(0.5, 0.5)?, rejected_first, 0.5, at(4, 0, 0));
    gives(Beta::new(1e200, 1e200)?, halves, 0.5, at(2, 0, 0));
    refuses(Beta::new(1.0, 1.0)?, uniforms(&[0.5]), 19, Kind::Uniform, 1);
    refuses(
        Beta::new(1.0, 1.0)?,
        uniforms(&[0.5, 1.0]),
        18,
        Kind::Uniform,
        1,
    );
    Ok(())
}

#[test]
fn beta_where_its_parameters_are_covered_no_more() -> Result<(), Refusal> {
    let nan = f64::from_bits(NAN_BITS);
    let (two_to_970, two_to_1023) = (0x7c90_0000_0000_0000, 0x7fe0_0000_0000_0000);
    let halves = uniforms(&[0.5, 0.5]);
    for (alpha, beta) in [
        (f64::from_bits(1), 1.0),
        (1e308, 1e308),
        (f64::MAX, f64::from_bits(two_to_970)),
        (f64::from_bits(two_to_1023), f64::MAX / 2.0),
        (f64::MIN_POSITIVE / 4.0, 1.0),
    ] {
        gives(Beta::new(alpha, beta)?, halves, nan, at(2, 0, 0));
    }
    // Subnormal, and 1/alpha is finite.
    for alpha in [0x0004_0000_0000_0001, 0x000f_ffff_ffff_ffff].map(f64::from_bits) {
        gives(Beta::new(alpha, 1.0)?, halves, alpha, at(2, 0, 0));
    }
    Ok(())
}

#[test]
fn beta_at_the_edges_of_what_is_covered() -> Result<(), Refusal> {
    let least = f64::MIN_POSITIVE;
    let below_2_to_970 = f64::from_bits(0x7c8f_ffff_ffff_ffff);
    let halves = uniforms(&[0.5, 0.5]);
    for (alpha, beta, value) in [
        (least, 1.0, least),
        (least, least, 0.5),
        (f64::MAX / 2.0, f64::MAX / 2.0, 0.5),
        (f64::MAX, least, 1.0),
        (least, f64::MAX, 0.0),
        (f64::MAX, below_2_to_970, 1.0),
        (below_2_to_970, f64::MAX, f64::EPSILON / 4.0),
    ] {
        gives(Beta::new(alpha, beta)?, halves, value, at(2, 0, 0));
    }
    let (above_one, below_one) = (1.0 + f64::EPSILON, 1.0 - f64::EPSILON / 2.0);
    let (smallest, sample) = (f64::from_bits(1), f64::from_bits(0x3ca0_0000_0000_0003));
    gives(
        Beta::new(above_one, above_one)?,
        uniforms(&[below_one, smallest]),
        sample,
        at(2, 0, 0),
    );
    // The first trial is rejected.
    gives(
        Beta::new(least, 1.0)?,
        uniforms(&[smallest, 0.5, 0.5, 0.5]),
        least,
        at(4, 0, 0),
    );
    Ok(())
}

#[test]
fn rows_of_gamma_and_those_on_it() -> Result<(), Refusal> {
    let draws = Draws {
        uniforms: &[0.5],
        normals: &[-4.0, 0.0],
        exponentials: &[],
    };
    gives(Gamma::new(2.0, 1.0)?, draws, 2.0 - 1.0 / 3.0, at(1, 2, 0));
    gives(
        Gamma::new(1.0, 2.0)?,
        exponentials(&[1.0]),
        2.0,
        at(0, 0, 1),
    );
    refuses(
        Gamma::new(f64::INFINITY, 1.0)?,
        exponentials(&[0.0]),
        18,
        Kind::Exponential,
        0,
    );
    gives(StudentT::new(1.0)?, normals(&[3.0, 2.0]), 1.5, at(0, 2, 0));
    gives(ChiSquared::new(1.0)?, normals(&[3.0]), 9.0, at(0, 1, 0));
    gives(
        FisherF::new(1.0, 1.0)?,
        normals(&[3.0, 2.0]),
        2.25,
        at(0, 2, 0),
    );
    assert_eq!(ChiSquared::new(f64::from_bits(1)).unwrap_err().number, 5);
    Ok(())
}

#[test]
fn rows_of_pert_and_dirichlet() -> Result<(), Refusal> {
    let halves = uniforms(&[0.5, 0.5]);
    gives(
        Pert::new(0.0, 10.0).with_mode(5.0)?,
        halves,
        5.0,
        at(2, 0, 0),
    );
    gives(
        Pert::new(0.0, 10.0).with_mean(5.0)?,
        halves,
        5.0,
        at(2, 0, 0),
    );
    gives_vector(
        &[1.0, 1.0],
        exponentials(&[1.0, 3.0]),
        &[0.25, 0.75],
        at(0, 0, 2),
    );
    gives_vector(&[0.1, 0.1], halves, &[0.5, 0.5], at(2, 0, 0));
    Ok(())
}

#[test]
fn every_nan_is_the_one() -> Result<(), Refusal> {
    let nan = f64::from_bits(NAN_BITS);
    let infinite = f64::INFINITY;
    let halves = uniforms(&[0.5, 0.5]);
    let both = Draws {
        normals: &[1.0],
        exponentials: &[1.0],
        ..Draws::default()
    };
    gives(Beta::new(infinite, infinite)?, halves, nan, at(2, 0, 0));
    gives(FisherF::new(infinite, 1.0)?, both, nan, at(0, 1, 1));
    gives(StudentT::new(infinite)?, both, nan, at(0, 1, 1));
    let pert = Pert::new(0.0, 10.0).with_shape(infinite).with_mode(5.0)?;
    gives(pert, halves, nan, at(2, 0, 0));
    // A sum of 0, as in the Rust: both components underflow.
    let tiny = Draws {
        uniforms: &[1e-40, 0.5, 1e-40, 0.5],
        normals: &[0.0, 0.0],
        exponentials: &[],
    };
    gives_vector(&[0.11, 0.11], tiny, &[nan, nan], at(4, 2, 0));
    // NaNs that no kernel answered, with the machine's own bits until they are mended: inf times 0, 0 times inf, 0/0.
    let first_tiny = uniforms(&[1e-200, 0.5]);
    gives(Beta::new(infinite, 0.5)?, first_tiny, nan, at(2, 0, 0));
    gives(StudentT::new(1.0)?, normals(&[0.0; 2]), nan, at(0, 2, 0));
    let mut out = [0.0; 3];
    let draws = normals(&[0.0, 0.0, 3.0, 2.0, 0.0, 0.0]);
    let after = FisherF::new(1.0, 1.0)?.fill(&draws, START, &mut out)?;
    assert_eq!(after, at(0, 6, 0));
    assert_eq!(bits(&out), [NAN_BITS, 2.25f64.to_bits(), NAN_BITS]);
    Ok(())
}

#[test]
fn every_nan_among_fields_is_the_one() -> Result<(), Refusal> {
    let infinite = f64::INFINITY;
    let BetaAlgorithm::BB { beta, gamma, .. } = Beta::new(infinite, infinite)?.made().algorithm
    else {
        panic!("both parameters are above 1");
    };
    assert_eq!(bits(&[beta, gamma]), [NAN_BITS; 2]);
    let by_overflow = Pert::new(0.0, 10.0).with_shape(1e308).with_mode(10.0)?;
    for made in [Beta::new(infinite, 0.5)?.made(), by_overflow.made().beta] {
        let BetaAlgorithm::BC { kappa1, .. } = made.algorithm else {
            panic!("one parameter is at most 1");
        };
        assert_eq!(kappa1.to_bits(), NAN_BITS);
    }
    let ratio = FisherF::new(infinite, infinite)?.made().dof_ratio;
    assert_eq!(ratio.to_bits(), NAN_BITS);
    Ok(())
}

#[test]
fn kernels() {
    let signalling = f64::from_bits(0xfff4_0000_0000_0077);
    for x in [signalling, -f64::NAN, -1.0] {
        assert_eq!(ewebasket::ln(x).to_bits(), NAN_BITS);
        assert_eq!(ewebasket::sqrt(x).to_bits(), NAN_BITS);
        assert_eq!(ewebasket::powf(x, 2.0).to_bits(), NAN_BITS);
    }
    assert_eq!(ewebasket::exp(signalling).to_bits(), NAN_BITS);
    assert_eq!(ewebasket::powf(1.0, f64::INFINITY).to_bits(), NAN_BITS);
    assert_eq!(ewebasket::ln(-0.0), f64::NEG_INFINITY);
    assert_eq!(ewebasket::sqrt(-0.0).to_bits(), (-0.0f64).to_bits());
}
