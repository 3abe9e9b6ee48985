//! Beta's fields, put in and taken out: a child module of the unchanged `beta`.

use super::{Beta, BetaAlgorithm, Distribution, Float, Open01, BB, BC};

#[derive(Clone, Copy, Debug, PartialEq)]
pub enum Fields<F> {
    Bb {
        switched: bool,
        a: F,
        b: F,
        alpha: F,
        beta: F,
        gamma: F,
    },
    Bc {
        switched: bool,
        a: F,
        b: F,
        alpha: F,
        beta: F,
        kappa1: F,
        kappa2: F,
    },
}

impl<F> Beta<F>
where
    F: Float,
    Open01: Distribution<F>,
{
    pub fn from_fields(fields: Fields<F>) -> Self {
        match fields {
            Fields::Bb {
                switched,
                a,
                b,
                alpha,
                beta,
                gamma,
            } => Beta {
                a,
                b,
                switched_params: switched,
                algorithm: BetaAlgorithm::BB(BB { alpha, beta, gamma }),
            },
            Fields::Bc {
                switched,
                a,
                b,
                alpha,
                beta,
                kappa1,
                kappa2,
            } => Beta {
                a,
                b,
                switched_params: switched,
                algorithm: BetaAlgorithm::BC(BC {
                    alpha,
                    beta,
                    kappa1,
                    kappa2,
                }),
            },
        }
    }

    pub fn fields(&self) -> Fields<F> {
        let (switched, a, b) = (self.switched_params, self.a, self.b);
        match self.algorithm {
            BetaAlgorithm::BB(BB { alpha, beta, gamma }) => Fields::Bb {
                switched,
                a,
                b,
                alpha,
                beta,
                gamma,
            },
            BetaAlgorithm::BC(BC {
                alpha,
                beta,
                kappa1,
                kappa2,
            }) => Fields::Bc {
                switched,
                a,
                b,
                alpha,
                beta,
                kappa1,
                kappa2,
            },
        }
    }
}
