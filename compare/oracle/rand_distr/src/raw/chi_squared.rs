//! ChiSquared's fields, put in and taken out: a child module of the unchanged `chi_squared`.

use super::{ChiSquared, ChiSquaredRepr};
use super::{Distribution, Exp1, Float, Gamma, Open01, StandardNormal};

#[derive(Clone, Copy, Debug, PartialEq)]
pub enum Fields<F>
where
    F: Float,
    StandardNormal: Distribution<F>,
    Exp1: Distribution<F>,
    Open01: Distribution<F>,
{
    /// k = 1: a normal squared.
    Square,
    Gamma(Gamma<F>),
}

impl<F> ChiSquared<F>
where
    F: Float,
    StandardNormal: Distribution<F>,
    Exp1: Distribution<F>,
    Open01: Distribution<F>,
{
    pub fn from_fields(fields: Fields<F>) -> Self {
        let repr = match fields {
            Fields::Square => ChiSquaredRepr::DoFExactlyOne,
            Fields::Gamma(gamma) => ChiSquaredRepr::DoFAnythingElse(gamma),
        };
        ChiSquared { repr }
    }

    pub fn fields(&self) -> Fields<F> {
        match self.repr {
            ChiSquaredRepr::DoFExactlyOne => Fields::Square,
            ChiSquaredRepr::DoFAnythingElse(gamma) => Fields::Gamma(gamma),
        }
    }
}
