//! The same calls through the crate `ewebasket`.

use crate::call::{Call, Seen, What, TOO_SHORT};
use ewebasket::{
    Beta, ChiSquared, Dirichlet, Draws, FisherF, Gamma, PertBuilder, Positions, Refusal, StudentT,
};
use oracle::inputs::{Pert, Sampler};

/// Whether the crate tells of a call what was seen of it in C.
pub fn alike(call: &Call, seen: &Seen) -> bool {
    if seen.number == TOO_SHORT {
        // The crate can't ask such a call.
        return true;
    }
    let lent = call.draws.lent();
    let draws = Draws {
        uniforms: lent.uniforms,
        normals: lent.normals,
        exponentials: lent.exponentials,
    };
    let at = Positions {
        uniforms: call.draws.at.uniforms,
        normals: call.draws.at.normals,
        exponentials: call.draws.at.exponentials,
    };
    let mut out: Vec<f64> = call.out.iter().map(|word| f64::from_bits(*word)).collect();
    let answer = asked(call, &draws, at, &mut out);
    if call.what == What::Sample && seen.number >= 18 {
        // A refused sample gives no value: in C its cell is +0.
        out[0] = 0.0;
    }
    let out: Vec<u64> = out.iter().map(|x| x.to_bits()).collect();
    told(answer, at) == seen.report[..6] && out == seen.out
}

fn asked(call: &Call, draws: &Draws, at: Positions, out: &mut [f64]) -> Result<Positions, Refusal> {
    macro_rules! asked {
        ($made:expr) => {
            $made.and_then(|sampler| match call.what {
                What::Fill => sampler.fill(draws, at, out),
                What::Sample => {
                    let (sample, after) = sampler.sample(draws, at)?;
                    out[0] = sample;
                    Ok(after)
                }
            })
        };
    }

    match &call.sampler {
        Sampler::Gamma(shape, scale) => asked!(Gamma::new(*shape, *scale)),
        Sampler::Beta(alpha, beta) => asked!(Beta::new(*alpha, *beta)),
        Sampler::ChiSquared(k) => asked!(ChiSquared::new(*k)),
        Sampler::FisherF(m, n) => asked!(FisherF::new(*m, *n)),
        Sampler::StudentT(nu) => asked!(StudentT::new(*nu)),
        Sampler::PertMode(pert) => asked!(builder(pert).with_mode(pert.middle)),
        Sampler::PertMean(pert) => asked!(builder(pert).with_mean(pert.middle)),
        Sampler::Dirichlet(alpha) => {
            Dirichlet::new(alpha).and_then(|dirichlet| dirichlet.fill(draws, at, out))
        }
    }
}

pub fn builder(pert: &Pert) -> PertBuilder {
    let builder = ewebasket::Pert::new(pert.min, pert.max);
    match pert.shape {
        None => builder,
        Some(shape) => builder.with_shape(shape),
    }
}

// The six cells of a report. A constructor is lent no positions; in C its refusal has those of the call.
fn told(answer: Result<Positions, Refusal>, lent: Positions) -> [usize; 6] {
    let (number, kind, index, at) = match answer {
        Ok(after) => (0, 0, 0, after),
        Err(refusal) => {
            let kind = refusal.kind.map_or(0, |kind| kind as usize);
            let at = match refusal.number {
                1..=15 => lent,
                _ => refusal.positions,
            };
            (refusal.number, kind, refusal.index.unwrap_or(0), at)
        }
    };
    [
        number,
        kind,
        index,
        at.uniforms,
        at.normals,
        at.exponentials,
    ]
}
