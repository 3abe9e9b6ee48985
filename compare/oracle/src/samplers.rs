//! The Rust's constructors, with their refusals numbered as document 01 numbers them.

use crate::{Refusal, K};
use rand_distr::multi::{Dirichlet, DirichletError};
use rand_distr::{
    Beta, BetaError, ChiSquared, ChiSquaredError, FisherF, FisherFError, Gamma, GammaError, Pert,
    PertError, StudentT,
};

// The Rust has no limit of its own.
const MOST_ELEMENTS: usize = 4096;

pub fn gamma(shape: f64, scale: f64) -> Result<Gamma<K>, Refusal> {
    Gamma::new(K(shape), K(scale)).map_err(|error| match error {
        GammaError::ShapeTooSmall => Refusal::plain(1),
        GammaError::ScaleTooSmall => Refusal::plain(2),
        GammaError::ScaleTooLarge => unreachable!("document 01: never returned"),
    })
}

pub fn beta(alpha: f64, beta: f64) -> Result<Beta<K>, Refusal> {
    Beta::new(K(alpha), K(beta)).map_err(|error| match error {
        BetaError::AlphaTooSmall => Refusal::plain(3),
        BetaError::BetaTooSmall => Refusal::plain(4),
    })
}

fn of_freedom(error: ChiSquaredError) -> Refusal {
    match error {
        ChiSquaredError::DoFTooSmall => Refusal::plain(5),
    }
}

pub fn chi_squared(k: f64) -> Result<ChiSquared<K>, Refusal> {
    ChiSquared::new(K(k)).map_err(of_freedom)
}

pub fn fisher_f(m: f64, n: f64) -> Result<FisherF<K>, Refusal> {
    FisherF::new(K(m), K(n)).map_err(|error| match error {
        FisherFError::MTooSmall => Refusal::plain(6),
        FisherFError::NTooSmall => Refusal::plain(7),
    })
}

pub fn student_t(nu: f64) -> Result<StudentT<K>, Refusal> {
    StudentT::new(K(nu)).map_err(of_freedom)
}

fn of_pert(error: PertError) -> Refusal {
    match error {
        PertError::RangeTooSmall => Refusal::plain(8),
        PertError::ModeRange => Refusal::plain(9),
        PertError::ShapeTooSmall => Refusal::plain(10),
    }
}

/// Without a shape it is the Rust's default that counts.
pub fn pert_with_mode(
    min: f64,
    max: f64,
    shape: Option<f64>,
    mode: f64,
) -> Result<Pert<K>, Refusal> {
    let builder = Pert::new(K(min), K(max));
    let made = match shape {
        None => builder.with_mode(K(mode)),
        Some(shape) => builder.with_shape(K(shape)).with_mode(K(mode)),
    };
    made.map_err(of_pert)
}

/// Without a shape it is the Rust's default that counts.
pub fn pert_with_mean(
    min: f64,
    max: f64,
    shape: Option<f64>,
    mean: f64,
) -> Result<Pert<K>, Refusal> {
    let builder = Pert::new(K(min), K(max));
    let made = match shape {
        None => builder.with_mean(K(mean)),
        Some(shape) => builder.with_shape(K(shape)).with_mean(K(mean)),
    };
    made.map_err(of_pert)
}

pub fn dirichlet(alpha: &[f64]) -> Result<Dirichlet<K>, Refusal> {
    if alpha.len() > MOST_ELEMENTS {
        return Err(Refusal::plain(15));
    }
    let alpha: Vec<K> = alpha.iter().copied().map(K).collect();
    Dirichlet::new(&alpha).map_err(|error| {
        let element = |number| Refusal::of_element(number, first_refused(&alpha));
        match error {
            DirichletError::AlphaTooShort => Refusal::plain(11),
            DirichletError::AlphaTooSmall => element(12),
            DirichletError::AlphaInfinite => element(13),
            DirichletError::AlphaSubnormal => element(14),
            DirichletError::FailedToCreateGamma
            | DirichletError::FailedToCreateBeta
            | DirichletError::SizeTooSmall => unreachable!("document 01: not to arise"),
        }
    })
}

// The Rust doesn't say which element it refused. Beside a good one, each is judged by the Rust's own scan.
fn first_refused(alpha: &[K]) -> usize {
    let refused = |element: &K| Dirichlet::new(&[*element, K(1.0)]).is_err();
    let found = alpha.iter().position(refused);
    found.expect("an element was refused")
}
