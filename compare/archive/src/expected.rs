//! What the Rust's own modules say a call comes to.

use crate::call::{Call, Seen, What, TOO_SHORT};
use oracle::inputs::Sampler;
use oracle::rand_distr::Distribution;
use oracle::{Outcome, Refusal, K};

pub fn expected(call: &Call) -> Seen {
    let untouched = Seen {
        number: TOO_SHORT,
        out: call.out.clone(),
        report: call.report.clone(),
    };
    if call.report.len() < 6 || call.what == What::Sample && call.out.is_empty() {
        return untouched;
    }
    let mut out = untouched.out;
    let outcome = match &call.sampler {
        Sampler::Gamma(shape, scale) => asked(call, oracle::gamma(*shape, *scale), &mut out),
        Sampler::Beta(alpha, beta) => asked(call, oracle::beta(*alpha, *beta), &mut out),
        Sampler::ChiSquared(k) => asked(call, oracle::chi_squared(*k), &mut out),
        Sampler::FisherF(m, n) => asked(call, oracle::fisher_f(*m, *n), &mut out),
        Sampler::StudentT(nu) => asked(call, oracle::student_t(*nu), &mut out),
        Sampler::PertMode(pert) => asked(call, pert.with_mode(), &mut out),
        Sampler::PertMean(pert) => asked(call, pert.with_mean(), &mut out),
        Sampler::Dirichlet(alpha) => {
            let made = oracle::dirichlet(alpha);
            oracle::vector(made, call.draws.lent(), call.draws.at, &mut out)
        }
    };
    let refusal = outcome.answer.err().unwrap_or(Refusal::plain(0));
    let number = refusal.number as usize;
    let mut report = untouched.report;
    report[..6].copy_from_slice(&[
        number,
        refusal.kind as usize,
        refusal.index,
        outcome.at.uniforms,
        outcome.at.normals,
        outcome.at.exponentials,
    ]);
    Seen {
        number,
        out,
        report,
    }
}

fn asked<D: Distribution<K>>(
    call: &Call,
    made: Result<D, Refusal>,
    out: &mut [u64],
) -> Outcome<()> {
    let (lent, at) = (call.draws.lent(), call.draws.at);
    match call.what {
        What::Fill => oracle::fill(made, lent, at, out),
        What::Sample => {
            let Outcome { answer, at } = oracle::sample(made, lent, at);
            match answer {
                Ok(sample) => out[0] = sample,
                Err(Refusal {
                    number: 18 | 19, ..
                }) => out[0] = 0.0f64.to_bits(),
                Err(_) => (),
            }
            let answer = answer.map(|_| ());
            Outcome { answer, at }
        }
    }
}
