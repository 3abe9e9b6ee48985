//! Gamma's fields, put in and taken out: a child module of the unchanged `gamma`.

use super::{Distribution, Exp, Exp1, Float, Open01, StandardNormal};
use super::{Gamma, GammaLargeShape, GammaRepr, GammaSmallShape};

#[derive(Clone, Copy, Debug, PartialEq)]
pub enum Fields<F> {
    One { inverse_rate: F },
    Small { inv_shape: F, scale: F, c: F, d: F },
    Large { scale: F, c: F, d: F },
}

impl<F> Gamma<F>
where
    F: Float,
    StandardNormal: Distribution<F>,
    Exp1: Distribution<F>,
    Open01: Distribution<F>,
{
    pub fn from_fields(fields: Fields<F>) -> Self {
        let repr = match fields {
            Fields::One { inverse_rate } => GammaRepr::One(Exp { inverse_rate }),
            Fields::Small {
                inv_shape,
                scale,
                c,
                d,
            } => GammaRepr::Small(GammaSmallShape {
                inv_shape,
                large_shape: GammaLargeShape { scale, c, d },
            }),
            Fields::Large { scale, c, d } => GammaRepr::Large(GammaLargeShape { scale, c, d }),
        };
        Gamma { repr }
    }

    pub fn fields(&self) -> Fields<F> {
        match self.repr {
            GammaRepr::One(Exp { inverse_rate }) => Fields::One { inverse_rate },
            GammaRepr::Small(GammaSmallShape {
                inv_shape,
                large_shape: GammaLargeShape { scale, c, d },
            }) => Fields::Small {
                inv_shape,
                scale,
                c,
                d,
            },
            GammaRepr::Large(GammaLargeShape { scale, c, d }) => Fields::Large { scale, c, d },
        }
    }
}
