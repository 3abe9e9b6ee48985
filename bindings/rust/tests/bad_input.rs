//! Slices that are empty, positions above their ends, lengths that differ: of every sampler.

mod common;

use common::{at, bits, exponentials, samplers, START};
use ewebasket::{Dirichlet, Draws, Positions};

const LENT: f64 = 7.0;

const DRAWS: Draws = Draws {
    uniforms: &[0.5; 8],
    normals: &[0.0, 0.5, -0.5, 0.25, 0.0, 1.0, 0.0, 0.5],
    exponentials: &[1.0; 8],
};

const END: Positions = at(8, 8, 8);

const ABOVE: [Positions; 5] = [
    at(9, 0, 0),
    at(0, 9, 0),
    at(0, 0, 9),
    at(9, 9, 9),
    at(usize::MAX, usize::MAX, usize::MAX),
];

#[test]
fn no_draws() {
    for (name, sampler) in samplers() {
        let refusal = sampler.sample(&Draws::default(), START).unwrap_err();
        assert_eq!((refusal.number, refusal.index), (19, Some(0)), "{name}");
        let mut out = [LENT; 3];
        let answer = sampler.fill(&Draws::default(), START, &mut out);
        assert_eq!(answer, Err(refusal), "{name}");
        assert_eq!(bits(&out), [0; 3], "{name}");
    }
}

#[test]
fn no_output() {
    for (name, sampler) in samplers() {
        assert_eq!(
            sampler.fill(&Draws::default(), START, &mut []),
            Ok(START),
            "{name}"
        );
        assert_eq!(sampler.fill(&DRAWS, END, &mut []), Ok(END), "{name}");
        for above in ABOVE {
            let refusal = sampler.fill(&DRAWS, above, &mut []).unwrap_err();
            assert_eq!((refusal.number, refusal.positions), (17, above), "{name}");
        }
    }
}

#[test]
fn positions_at_the_end_and_above() {
    for (name, sampler) in samplers() {
        let refusal = sampler.sample(&DRAWS, END).unwrap_err();
        assert_eq!((refusal.number, refusal.positions), (19, END), "{name}");
        assert_eq!(refusal.index, Some(8), "{name}");
        for above in ABOVE {
            let mut out = [LENT; 2];
            let refusal = sampler.sample(&DRAWS, above).unwrap_err();
            assert_eq!((refusal.number, refusal.positions), (17, above), "{name}");
            assert_eq!(
                sampler.fill(&DRAWS, above, &mut out),
                Err(refusal),
                "{name}"
            );
            assert_eq!(out, [LENT; 2], "{name}");
        }
    }
}

#[test]
fn slices_of_different_lengths() {
    // A position is held to its own slice's length: what is above one's end is within another's.
    let draws = Draws {
        uniforms: &[0.5; 4],
        normals: &[0.5; 2],
        exponentials: &[1.0; 3],
    };
    for (name, sampler) in samplers() {
        assert!(sampler.fill(&draws, at(4, 2, 3), &mut []).is_ok(), "{name}");
        for above in [at(5, 0, 0), at(0, 3, 0), at(0, 0, 4)] {
            let refusal = sampler.sample(&draws, above).unwrap_err();
            assert_eq!(refusal.number, 17, "{name}");
        }
    }
}

#[test]
fn a_fill_is_samples_in_order() {
    for (name, sampler) in samplers() {
        let (first, after) = sampler.sample(&DRAWS, START).unwrap();
        let (second, after) = sampler.sample(&DRAWS, after).unwrap();
        let mut out = [LENT; 4];
        let filled = sampler.fill(&DRAWS, START, &mut out[1..3]);
        assert_eq!(filled, Ok(after), "{name}");
        assert_eq!(bits(&out), bits(&[LENT, first, second, LENT]), "{name}");
    }
}

#[test]
fn a_draw_of_nan_is_refused_only_where_it_is_needed() {
    let nans = Draws {
        uniforms: &[f64::NAN],
        normals: &[f64::NAN],
        exponentials: &[f64::NAN],
    };
    for (name, sampler) in samplers() {
        let refusal = sampler.sample(&nans, START).unwrap_err();
        assert_eq!((refusal.number, refusal.index), (18, Some(0)), "{name}");
        assert_eq!(sampler.fill(&nans, START, &mut []), Ok(START), "{name}");
    }
}

#[test]
fn dirichlet() {
    let draws = exponentials(&[1.0, 3.0]);
    let dirichlet = Dirichlet::new(&[1.0, 1.0]).unwrap();
    for count in [0, 1, 3, 4] {
        let mut out = vec![LENT; count];
        let refusal = dirichlet.fill(&draws, START, &mut out).unwrap_err();
        assert_eq!(refusal.number, 16);
        assert_eq!(out, vec![LENT; count]);
    }
    let mut out = [LENT; 4];
    let answer = dirichlet.fill(&Draws::default(), START, &mut out[1..3]);
    assert_eq!(answer.unwrap_err().number, 19);
    assert_eq!(bits(&out), bits(&[LENT, 0.0, 0.0, LENT]));
    for above in [at(1, 0, 0), at(0, 1, 0), at(0, 0, 3)] {
        let refusal = dirichlet.sample(&draws, above).unwrap_err();
        assert_eq!((refusal.number, refusal.positions), (17, above));
    }
}

#[test]
fn a_fill_of_65536() {
    let uniforms: Vec<f64> = (0..1 << 18)
        .map(|i| (i % 1023 + 1) as f64 / 1024.0)
        .collect();
    let draws = Draws {
        uniforms: &uniforms,
        ..Draws::default()
    };
    let beta = ewebasket::Beta::new(2.0, 5.0).unwrap();
    let mut out = vec![LENT; 1 << 16];
    let filled = beta.fill(&draws, START, &mut out).unwrap();
    let mut positions = START;
    for element in out {
        let (sample, after) = beta.sample(&draws, positions).unwrap();
        assert_eq!(sample.to_bits(), element.to_bits());
        positions = after;
    }
    assert_eq!(positions, filled);
}
