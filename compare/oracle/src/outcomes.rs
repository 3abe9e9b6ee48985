//! What a call comes to.

use crate::{bits, Lent, Positions, Refusal, Replay, K};
use rand_distr::multi::{Dirichlet, MultiDistribution};
use rand_distr::Distribution;
use std::panic::{catch_unwind, resume_unwind, AssertUnwindSafe};

/// The answer, and the positions after the call: as lent where it is a refusal.
#[derive(Clone, Copy, Debug, PartialEq, Eq)]
pub struct Outcome<T> {
    pub answer: Result<T, Refusal>,
    pub at: Positions,
}

/// One sample: its bits, or the constructor's refusal, 17, 18 or 19.
pub fn sample<D: Distribution<K>>(
    made: Result<D, Refusal>,
    lent: Lent,
    at: Positions,
) -> Outcome<u64> {
    let drawn = made.and_then(|sampler| replayed(lent, at, |rng| bits(sampler.sample(rng))));
    outcome(drawn, at)
}

/// A sample into every cell, in order. A refusal up to 17 leaves the cells as lent, a later one leaves +0 in all of them.
pub fn fill<D: Distribution<K>>(
    made: Result<D, Refusal>,
    lent: Lent,
    at: Positions,
    cells: &mut [u64],
) -> Outcome<()> {
    let drawn = made.and_then(|sampler| {
        replayed(lent, at, |rng| {
            for cell in cells.iter_mut() {
                *cell = bits(sampler.sample(rng));
            }
        })
    });
    cleared(outcome(drawn, at), cells)
}

/// One vector of a Dirichlet sampler, which also has refusal 16. Its cells are as those of a fill.
pub fn vector(
    made: Result<Dirichlet<K>, Refusal>,
    lent: Lent,
    at: Positions,
    cells: &mut [u64],
) -> Outcome<()> {
    let drawn = made.and_then(|sampler| {
        if cells.len() != sampler.sample_len() {
            return Err(Refusal::plain(16));
        }
        replayed(lent, at, |rng| {
            let lent_cells = cells.iter().map(|cell| K(f64::from_bits(*cell)));
            let mut output: Vec<K> = lent_cells.collect();
            sampler.sample_to_slice(rng, &mut output);
            for (cell, component) in cells.iter_mut().zip(output) {
                *cell = bits(component);
            }
        })
    });
    cleared(outcome(drawn, at), cells)
}

/// Runs the Rust over the lent draws: what it made and the positions past its draws, or the draw that stopped it.
pub fn replayed<T>(
    lent: Lent,
    at: Positions,
    run: impl FnOnce(&mut Replay) -> T,
) -> Result<(T, Positions), Refusal> {
    if at.above(lent) {
        return Err(Refusal::plain(17));
    }
    let mut rng = Replay::new(lent, at);
    match catch_unwind(AssertUnwindSafe(|| run(&mut rng))) {
        Ok(made) => Ok((made, rng.at())),
        Err(thrown) => match thrown.downcast::<Refusal>() {
            Ok(refusal) => Err(*refusal),
            // A fault of the Rust or of ours, not a draw.
            Err(fault) => resume_unwind(fault),
        },
    }
}

fn outcome<T>(drawn: Result<(T, Positions), Refusal>, lent_at: Positions) -> Outcome<T> {
    match drawn {
        Ok((made, at)) => Outcome {
            answer: Ok(made),
            at,
        },
        Err(refusal) => Outcome {
            answer: Err(refusal),
            at: lent_at,
        },
    }
}

fn cleared(outcome: Outcome<()>, cells: &mut [u64]) -> Outcome<()> {
    if let Err(Refusal {
        number: 18 | 19, ..
    }) = outcome.answer
    {
        cells.fill(0.0f64.to_bits());
    }
    outcome
}
