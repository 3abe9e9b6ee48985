//! Every refusal number, and the words that it prints; the exponentials that 18 refuses.

mod common;

use common::{at, bits, exponentials, normals, uniforms, Sampler, START};
use ewebasket::{
    Beta, ChiSquared, Dirichlet, Draws, FisherF, Gamma, Kind, Pert, Positions, Refusal, StudentT,
};

#[track_caller]
fn is<T>(answer: Result<T, Refusal>, number: usize, words: &str) -> Refusal {
    let Err(refusal) = answer else {
        panic!("not refused, for {number}");
    };
    assert_eq!(refusal.number, number);
    assert_eq!(refusal.to_string(), format!("refusal {number}: {words}"));
    refusal
}

/// A constructor's refusal names no draw and has no positions.
#[track_caller]
fn made<T>(answer: Result<T, Refusal>, number: usize, words: &str) {
    let refusal = is(answer, number, words);
    assert_eq!((refusal.kind, refusal.index), (None, None));
    assert_eq!(refusal.positions, Positions::default());
}

#[track_caller]
fn element(alpha: &[f64], number: usize, index: usize, words: &str) {
    let refusal = is(Dirichlet::new(alpha), number, words);
    assert_eq!((refusal.kind, refusal.index), (None, Some(index)));
    assert_eq!(refusal.positions, Positions::default());
}

// What is not above 0: a NaN is not.
const BAD: [f64; 4] = [0.0, -0.0, -1.0, f64::NAN];

#[test]
fn refusals_1_to_7() {
    let freedom = "the degrees of freedom are not 1, and half of them is not above 0";
    for x in BAD {
        made(Gamma::new(x, x), 1, "Gamma's shape is not above 0");
        made(Gamma::new(1.0, x), 2, "Gamma's scale is not above 0");
        made(Beta::new(x, x), 3, "Beta's alpha is not above 0");
        made(Beta::new(1.0, x), 4, "Beta's beta is not above 0");
        made(ChiSquared::new(x), 5, freedom);
        made(StudentT::new(x), 5, freedom);
        made(
            FisherF::new(x, x),
            6,
            "Fisher's m is not 1, and half of it is not above 0",
        );
        made(
            FisherF::new(1.0, x),
            7,
            "Fisher's n is not 1, and half of it is not above 0",
        );
    }
}

#[test]
fn refusals_8_to_10() {
    let range = "PERT's max is not above its min, or its Beta is refused";
    let mode = "PERT's mode does not lie from min to max";
    let shape = "PERT's shape is not at least 0";
    for (min, max) in [
        (1.0, 1.0),
        (1.0, 0.0),
        (f64::NAN, 1.0),
        (0.0, f64::NAN),
        (0.0, f64::INFINITY),
    ] {
        made(Pert::new(min, max).with_mode(0.5), 8, range);
    }
    made(
        Pert::new(1.0, 1.0).with_shape(-1.0).with_mean(9.0),
        8,
        range,
    );
    for middle in [-0.5, 1.5, f64::NAN] {
        made(
            Pert::new(0.0, 1.0).with_shape(-1.0).with_mode(middle),
            9,
            mode,
        );
        made(Pert::new(0.0, 1.0).with_mean(middle), 9, mode);
    }
    for x in [-1.0, f64::NAN] {
        made(Pert::new(0.0, 1.0).with_shape(x).with_mode(0.5), 10, shape);
    }
    made(
        Pert::new(0.0, 1.0).with_shape(-1.0).with_mean(0.5),
        10,
        shape,
    );
}

#[test]
fn refusals_11_to_15() {
    made(
        Dirichlet::new(&[]),
        11,
        "Dirichlet's alpha has fewer than 2 elements",
    );
    made(
        Dirichlet::new(&[-1.0]),
        11,
        "Dirichlet's alpha has fewer than 2 elements",
    );
    made(
        Dirichlet::new(&[-1.0; 4097]),
        15,
        "Dirichlet's alpha has more than 4,096 elements",
    );
    let subnormal = f64::from_bits(1);
    element(
        &[1.0, 0.0, f64::INFINITY],
        12,
        1,
        "element 1 of Dirichlet's alpha is not above 0",
    );
    element(
        &[1.0, 1.0, f64::NAN],
        12,
        2,
        "element 2 of Dirichlet's alpha is not above 0",
    );
    element(
        &[f64::INFINITY, subnormal],
        13,
        0,
        "element 0 of Dirichlet's alpha is infinite",
    );
    element(
        &[1.0, subnormal, -1.0],
        14,
        1,
        "element 1 of Dirichlet's alpha is subnormal",
    );
    let mut long = [1.0; 4096];
    assert!(Dirichlet::new(&long).is_ok());
    long[4095] = 0.0;
    element(
        &long,
        12,
        4095,
        "element 4095 of Dirichlet's alpha is not above 0",
    );
}

#[test]
fn refusals_16_and_17() {
    let lent = at(0, 0, 3);
    let draws = exponentials(&[1.0, 3.0]);
    let dirichlet = Dirichlet::new(&[1.0, 1.0]).unwrap();
    let answer = dirichlet.fill(&draws, lent, &mut [9.0; 3]);
    let refusal = is(answer, 16, "the output is not as long as Dirichlet's alpha");
    assert_eq!(
        (refusal.kind, refusal.index, refusal.positions),
        (None, None, lent)
    );
    let answer = dirichlet.fill(&draws, lent, &mut [9.0; 2]);
    let refusal = is(answer, 17, "a position is above its slice's length");
    assert_eq!(
        (refusal.kind, refusal.index, refusal.positions),
        (None, None, lent)
    );
}

#[test]
fn refusals_18_and_19() {
    let draw = |answer: Result<(f64, Positions), Refusal>, number, kind, index, lent, words| {
        let refusal = is(answer, number, words);
        assert_eq!(
            (refusal.kind, refusal.index, refusal.positions),
            (Some(kind), Some(index), lent)
        );
    };
    let (u, n, e) = (Kind::Uniform, Kind::Normal, Kind::Exponential);
    let beta = Beta::new(1.0, 1.0).unwrap();
    let chi_squared = ChiSquared::new(1.0).unwrap();
    let gamma = Gamma::new(1.0, 1.0).unwrap();
    for x in [0.0, 1.0, -0.5, 2.0, f64::NAN] {
        let words = "the uniform needed next, at index 1, is not usable";
        draw(
            beta.sample(&uniforms(&[0.5, x]), START),
            18,
            u,
            1,
            START,
            words,
        );
    }
    for x in [f64::INFINITY, f64::NEG_INFINITY, f64::NAN] {
        let words = "the normal needed next, at index 0, is not usable";
        draw(
            chi_squared.sample(&normals(&[x]), START),
            18,
            n,
            0,
            START,
            words,
        );
    }
    for x in [0.0, -0.0, -1.0, f64::INFINITY, f64::NAN] {
        let (lent, words) = (
            at(0, 0, 2),
            "the exponential needed next, at index 2, is not usable",
        );
        draw(
            gamma.sample(&exponentials(&[1.0, 1.0, x]), lent),
            18,
            e,
            2,
            lent,
            words,
        );
    }
    let words = "the uniform needed next, at index 1, is absent";
    draw(
        beta.sample(&uniforms(&[0.5]), START),
        19,
        u,
        1,
        START,
        words,
    );
    let words = "the normal needed next, at index 0, is absent";
    draw(
        chi_squared.sample(&Draws::default(), START),
        19,
        n,
        0,
        START,
        words,
    );
    let words = "the exponential needed next, at index 2, is absent";
    draw(
        gamma.sample(&exponentials(&[1.0; 2]), at(0, 0, 2)),
        19,
        e,
        2,
        at(0, 0, 2),
        words,
    );
}

/// A sample, and a fill that comes to the same draw, are refused by 18 for the exponential at this index.
#[track_caller]
fn refuses_exponential(sampler: impl Sampler, draws: &Draws, lent: Positions, index: usize) {
    let refusal = Refusal {
        number: 18,
        kind: Some(Kind::Exponential),
        index: Some(index),
        positions: lent,
    };
    assert_eq!(sampler.sample(draws, lent), Err(refusal));
    let mut out = [9.0; 3];
    assert_eq!(sampler.fill(draws, lent, &mut out), Err(refusal));
    assert_eq!(bits(&out), [0; 3]);
}

#[test]
fn an_exponential_of_zero_is_refused() -> Result<(), Refusal> {
    for zero in [0.0, -0.0] {
        let first = Draws {
            normals: &[1.0],
            exponentials: &[zero, 1.0],
            ..Draws::default()
        };
        let second = Draws {
            exponentials: &[1.0, zero],
            ..first
        };
        // One before the position, or behind what is needed, is not examined.
        let around = Draws {
            exponentials: &[zero, 1.0, zero],
            ..Draws::default()
        };
        let gamma = Gamma::new(1.0, 2.0)?;
        assert_eq!(gamma.sample(&around, at(0, 0, 1)), Ok((2.0, at(0, 0, 2))));
        refuses_exponential(gamma, &around, at(0, 0, 2), 2);
        for k in [2.0, f64::INFINITY] {
            refuses_exponential(Gamma::new(0.5 * k, 1.0)?, &first, START, 0);
            refuses_exponential(ChiSquared::new(k)?, &first, START, 0);
            // After Student's normal; as Fisher's numerator, and as its denominator after either kind of numerator.
            refuses_exponential(StudentT::new(k)?, &first, START, 0);
            refuses_exponential(FisherF::new(k, 1.0)?, &first, START, 0);
            refuses_exponential(FisherF::new(1.0, k)?, &first, START, 0);
            refuses_exponential(FisherF::new(k, k)?, &second, START, 1);
        }
        // In the second cell of a fill, and the second component of a vector.
        let refusal = Refusal {
            number: 18,
            kind: Some(Kind::Exponential),
            index: Some(1),
            positions: START,
        };
        let mut out = [9.0; 3];
        assert_eq!(gamma.fill(&second, START, &mut out), Err(refusal));
        assert_eq!(bits(&out), [0; 3]);
        let dirichlet = Dirichlet::new(&[1.0, 1.0])?;
        assert_eq!(dirichlet.sample(&second, START), Err(refusal));
        let mut out = [9.0; 2];
        assert_eq!(dirichlet.fill(&second, START, &mut out), Err(refusal));
        assert_eq!(bits(&out), [0; 2]);
    }
    Ok(())
}

#[test]
fn the_least_exponential_above_zero_is_used() -> Result<(), Refusal> {
    let least = [f64::from_bits(1)];
    let draws = exponentials(&least);
    let (sample, after) = Gamma::new(1.0, 2.0)?.sample(&draws, START)?;
    assert_eq!((sample.to_bits(), after), (2, at(0, 0, 1)));
    let (sample, after) = ChiSquared::new(f64::INFINITY)?.sample(&draws, START)?;
    assert_eq!((sample, after), (f64::INFINITY, at(0, 0, 1)));
    Ok(())
}

#[test]
fn a_refusal_is_an_error() {
    let error: Box<dyn std::error::Error + Send + Sync> = Gamma::new(0.0, 1.0).unwrap_err().into();
    assert_eq!(error.to_string(), "refusal 1: Gamma's shape is not above 0");
}
