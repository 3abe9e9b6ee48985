//! Refusals in their order, positions and output cells, as document 01's section Numbered refusals has them.

use oracle::rand_distr::Distribution;
use oracle::{Lent, Outcome, Positions, Refusal, K};

// A lent cell: a NaN with a payload, so that a cell left as lent is known.
const LENT: u64 = 0x7ff4_0000_0000_0077;

const DRAWS: Lent = Lent {
    uniforms: &[0.5, 0.5, 0.25, 0.75, 0.5, 0.5],
    normals: &[0.0, 1.0, -1.0, 0.5],
    exponentials: &[1.0, 2.0, 3.0],
};

fn at(uniforms: usize, normals: usize, exponentials: usize) -> Positions {
    Positions {
        uniforms,
        normals,
        exponentials,
    }
}

fn refused<T>(number: u32, kind: u32, index: usize, at: Positions) -> Outcome<T> {
    let answer = Err(Refusal {
        number,
        kind,
        index,
    });
    Outcome { answer, at }
}

fn made<D>(sampler: Result<D, Refusal>) -> Option<u32> {
    sampler.err().map(|refusal| refusal.number)
}

#[test]
fn constructors() {
    let (nan, infinity, small) = (f64::NAN, f64::INFINITY, f64::from_bits(1));
    for bad in [0.0, -0.0, -1.0, nan, -infinity] {
        assert_eq!(made(oracle::gamma(bad, bad)), Some(1));
        assert_eq!(made(oracle::gamma(1.0, bad)), Some(2));
        assert_eq!(made(oracle::beta(bad, bad)), Some(3));
        assert_eq!(made(oracle::beta(1.0, bad)), Some(4));
        assert_eq!(made(oracle::chi_squared(bad)), Some(5));
        assert_eq!(made(oracle::student_t(bad)), Some(5));
        assert_eq!(made(oracle::fisher_f(bad, bad)), Some(6));
        assert_eq!(made(oracle::fisher_f(1.0, bad)), Some(7));
    }
    assert_eq!(made(oracle::student_t(small)), Some(5));
    assert_eq!(made(oracle::fisher_f(small, 1.0)), Some(6));
    assert_eq!(made(oracle::gamma(small, infinity)), None);
    let pert = |min, max, shape, mode| made(oracle::pert_with_mode(min, max, Some(shape), mode));
    assert_eq!(pert(1.0, 1.0, -1.0, 2.0), Some(8));
    assert_eq!(pert(0.0, 1.0, -1.0, 2.0), Some(9));
    assert_eq!(pert(0.0, 1.0, -1.0, 1.0), Some(10));
    assert_eq!(pert(0.0, 1.0, infinity, 1.0), Some(8));
    assert_eq!(pert(0.0, 1.0, -0.0, 1.0), None);
    // A shape of 0 leaves no mode for a mean.
    let mean = oracle::pert_with_mean(0.0, 1.0, Some(0.0), 0.5);
    assert_eq!(made(mean), Some(9));
}

#[test]
fn dirichlets_refusals_in_order() {
    let subnormal = f64::from_bits(1);
    let scan = |alpha: &[f64]| oracle::dirichlet(alpha).unwrap_err();
    assert_eq!(scan(&[0.0]), Refusal::plain(11));
    assert_eq!(scan(&[0.0; 4097]), Refusal::plain(15));
    assert_eq!(scan(&[0.0; 4096]), Refusal::of_element(12, 0));
    assert_eq!(scan(&[1.0, f64::NAN, 0.0]), Refusal::of_element(12, 1));
    assert_eq!(scan(&[1.0, 1.0, f64::INFINITY]), Refusal::of_element(13, 2));
    assert_eq!(scan(&[subnormal, 0.0]), Refusal::of_element(14, 0));
    assert_eq!(made(oracle::dirichlet(&[1.0; 4096])), None);

    // 12 before 16, 16 before 17, 17 before the draws.
    let above = at(7, 0, 0);
    let mut cells = [LENT; 3];
    let outcome = oracle::vector(oracle::dirichlet(&[1.0, 0.0]), DRAWS, above, &mut cells);
    assert_eq!((outcome, cells), (refused(12, 0, 1, above), [LENT; 3]));
    let outcome = oracle::vector(oracle::dirichlet(&[1.0; 2]), DRAWS, above, &mut cells);
    assert_eq!((outcome, cells), (refused(16, 0, 0, above), [LENT; 3]));
    let outcome = oracle::vector(oracle::dirichlet(&[1.0; 3]), DRAWS, above, &mut cells);
    assert_eq!((outcome, cells), (refused(17, 0, 0, above), [LENT; 3]));
    let outcome = oracle::vector(oracle::dirichlet(&[1.0; 3]), DRAWS, at(0, 0, 1), &mut cells);
    assert_eq!((outcome, cells), (refused(19, 3, 3, at(0, 0, 1)), [0; 3]));
}

#[test]
fn a_position_above_its_slice_comes_before_anything_drawn() {
    for above in [at(7, 0, 0), at(0, 5, 0), at(0, 0, 4), at(0, 0, usize::MAX)] {
        // Also of a kind that the sampler can't read, and for an empty output.
        let outcome = oracle::sample(oracle::beta(1.0, 1.0), DRAWS, above);
        assert_eq!(outcome, refused(17, 0, 0, above));
        let outcome = oracle::fill(oracle::beta(1.0, 1.0), DRAWS, above, &mut []);
        assert_eq!(outcome, refused(17, 0, 0, above));
        let mut cells = [LENT; 2];
        let outcome = oracle::fill(oracle::gamma(2.0, 1.0), DRAWS, above, &mut cells);
        assert_eq!((outcome, cells), (refused(17, 0, 0, above), [LENT; 2]));
        // A constructor's number comes first.
        let outcome = oracle::fill(oracle::gamma(0.0, 1.0), DRAWS, above, &mut cells);
        assert_eq!((outcome, cells), (refused(1, 0, 0, above), [LENT; 2]));
    }
}

#[test]
fn an_empty_output_uses_nothing() {
    let end = at(6, 4, 3);
    let outcome = oracle::fill(oracle::beta(1.0, 1.0), DRAWS, end, &mut []);
    assert_eq!(
        outcome,
        Outcome {
            answer: Ok(()),
            at: end
        }
    );
}

#[test]
fn a_draw_at_the_end_is_absent() {
    let end = at(6, 4, 3);
    let absent = |number, index| refused(19, number, index, end);
    let sample = |gamma| oracle::sample(gamma, DRAWS, end);
    assert_eq!(sample(oracle::gamma(0.5, 1.0)), absent(1, 6));
    assert_eq!(sample(oracle::gamma(2.0, 1.0)), absent(2, 4));
    assert_eq!(sample(oracle::gamma(1.0, 1.0)), absent(3, 3));
}

#[test]
fn usable_draws() {
    let (nan, infinity) = (f64::NAN, f64::INFINITY);
    let below_one = f64::from_bits(1.0f64.to_bits() - 1);
    for (uniform, usable) in [
        (0.0, false),
        (-0.0, false),
        (f64::from_bits(1), true),
        (below_one, true),
        (1.0, false),
        (-0.5, false),
        (nan, false),
        (infinity, false),
    ] {
        let lent = Lent {
            uniforms: &[uniform, 0.5],
            ..Lent::default()
        };
        check(oracle::beta(1.0, 1.0), lent, usable, 1);
    }
    for (normal, usable) in [
        (-0.0, true),
        (f64::MAX, true),
        (nan, false),
        (infinity, false),
        (-infinity, false),
    ] {
        let lent = Lent {
            normals: &[normal],
            ..Lent::default()
        };
        check(oracle::chi_squared(1.0), lent, usable, 2);
    }
    for (exponential, usable) in [
        (0.0, false),
        (-0.0, false),
        (f64::from_bits(1), true),
        (f64::MAX, true),
        (-f64::from_bits(1), false),
        (-1.0, false),
        (nan, false),
        (infinity, false),
        (-infinity, false),
    ] {
        let lent = Lent {
            exponentials: &[exponential],
            ..Lent::default()
        };
        check(oracle::gamma(1.0, 1.0), lent, usable, 3);
    }
}

#[track_caller]
fn check<D: Distribution<K>>(made: Result<D, Refusal>, lent: Lent, usable: bool, kind: u32) {
    let outcome = oracle::sample(made, lent, Positions::default());
    if usable {
        assert!(outcome.answer.is_ok());
    } else {
        assert_eq!(outcome, refused(18, kind, 0, Positions::default()));
    }
}

#[test]
fn a_fill_is_samples_in_order() {
    let start = at(1, 1, 1);
    for made in [oracle::gamma(2.0, 1.0), oracle::gamma(1.0, 3.0)] {
        let mut cells = [LENT; 2];
        let filled = oracle::fill(made, DRAWS, start, &mut cells);
        let mut position = start;
        for cell in cells {
            let sample = oracle::sample(made, DRAWS, position);
            assert_eq!(sample.answer, Ok(cell));
            position = sample.at;
        }
        let answer = Ok(());
        let at = position;
        assert_eq!(filled, Outcome { answer, at });
    }
}

#[test]
fn a_fill_that_runs_short_is_cleared() {
    let mut cells = [LENT; 4];
    let outcome = oracle::fill(oracle::beta(1.0, 1.0), DRAWS, at(0, 1, 2), &mut cells);
    assert_eq!((outcome, cells), (refused(19, 1, 6, at(0, 1, 2)), [0; 4]));
    for unusable in [-1.0, 0.0, -0.0] {
        let lent = Lent {
            exponentials: &[1.0, unusable, 1.0],
            ..DRAWS
        };
        let mut cells = [LENT; 4];
        let outcome = oracle::fill(oracle::gamma(1.0, 1.0), lent, at(0, 0, 0), &mut cells);
        assert_eq!((outcome, cells), (refused(18, 3, 1, at(0, 0, 0)), [0; 4]));
        // Not needed, so not examined.
        let outcome = oracle::fill(oracle::gamma(1.0, 1.0), lent, at(0, 0, 0), &mut cells[..1]);
        assert_eq!((outcome.answer, outcome.at), (Ok(()), at(0, 0, 1)));
    }
}

#[test]
fn smalls_first_uniform_comes_before_any_trial() {
    let lent = Lent {
        uniforms: &[1.0],
        ..Lent::default()
    };
    let outcome = oracle::sample(oracle::gamma(0.5, 1.0), lent, at(0, 0, 0));
    assert_eq!(outcome, refused(18, 1, 0, at(0, 0, 0)));
}

#[test]
fn a_nan_vector_is_given() {
    // Both components underflow: powf(1e-40, 1/0.11) is 0.
    let lent = Lent {
        uniforms: &[1e-40, 0.5, 1e-40, 0.5],
        normals: &[0.0, 0.0],
        ..Lent::default()
    };
    let mut cells = [LENT; 2];
    let outcome = oracle::vector(
        oracle::dirichlet(&[0.11, 0.11]),
        lent,
        at(0, 0, 0),
        &mut cells,
    );
    assert_eq!((outcome.answer, outcome.at), (Ok(()), at(4, 2, 0)));
    assert_eq!(cells, [0x7ff8_0000_0000_0000; 2]);
}

#[test]
fn an_exponential_of_zero_is_refused_wherever_it_is_needed() {
    let start = at(0, 0, 0);
    for zero in [0.0, -0.0] {
        let lent = |exponentials| Lent {
            normals: &[1.0],
            exponentials,
            ..Lent::default()
        };
        let (first, second) = (&[zero, 1.0], &[1.0, zero]);
        for k in [f64::INFINITY, 2.0] {
            let outcome = oracle::sample(oracle::chi_squared(k), lent(first), start);
            assert_eq!(outcome, refused(18, 3, 0, start));
            let outcome = oracle::sample(oracle::student_t(k), lent(first), start);
            assert_eq!(outcome, refused(18, 3, 0, start));
            for (index, exponentials) in [first, second].into_iter().enumerate() {
                let fisher = oracle::fisher_f(k, k);
                let outcome = oracle::sample(fisher, lent(exponentials), start);
                assert_eq!(outcome, refused(18, 3, index, start));
            }
        }
        for (index, exponentials) in [first, second].into_iter().enumerate() {
            let mut cells = [LENT; 2];
            let dirichlet = oracle::dirichlet(&[1.0, 1.0]);
            let outcome = oracle::vector(dirichlet, lent(exponentials), start, &mut cells);
            assert_eq!((outcome, cells), (refused(18, 3, index, start), [0; 2]));
        }
    }
}
