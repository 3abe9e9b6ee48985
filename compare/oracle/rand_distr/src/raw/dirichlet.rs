//! Dirichlet's component samplers, put in and taken out: a child module of the unchanged `dirichlet`.

use super::{Beta, Distribution, Exp1, Float, Gamma, Open01, StandardNormal};
use super::{Dirichlet, DirichletFromBeta, DirichletFromGamma, DirichletRepr};

#[derive(Clone, Debug, PartialEq)]
pub enum Fields<F>
where
    F: Float,
    StandardNormal: Distribution<F>,
    Exp1: Distribution<F>,
    Open01: Distribution<F>,
{
    Gammas(Vec<Gamma<F>>),
    /// One sampler fewer than the vector has components.
    Betas(Vec<Beta<F>>),
}

impl<F> Dirichlet<F>
where
    F: Float,
    StandardNormal: Distribution<F>,
    Exp1: Distribution<F>,
    Open01: Distribution<F>,
{
    pub fn from_fields(fields: Fields<F>) -> Self {
        let repr = match fields {
            Fields::Gammas(samplers) => DirichletRepr::FromGamma(DirichletFromGamma { samplers }),
            Fields::Betas(samplers) => DirichletRepr::FromBeta(DirichletFromBeta {
                samplers: samplers.into_boxed_slice(),
            }),
        };
        Dirichlet { repr }
    }

    pub fn fields(&self) -> Fields<F> {
        match &self.repr {
            DirichletRepr::FromGamma(route) => Fields::Gammas(route.samplers.clone()),
            DirichletRepr::FromBeta(route) => Fields::Betas(route.samplers.to_vec()),
        }
    }
}
