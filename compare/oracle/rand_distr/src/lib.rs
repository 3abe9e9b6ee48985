//! The seven modules of rand_distr 0.6.0 as they are, and around them as much of the rest of that crate as they name.
//!
//! They stand in a crate of their own, so that `crate::` in them means what it means in rand_distr.

// The real crate allows this too: a test written 'not above' is one that a NaN fails.
#![allow(clippy::neg_cmp_op_on_partial_ord)]

extern crate alloc;

/// `Fields` of a sampler that is one struct, which has the same fields by the same names. `F` in their types is the number type.
macro_rules! plain_fields {
    ($sampler:ident { $($field:ident: $type:ty,)+ }) => {
        #[derive(Clone, Copy, Debug, PartialEq)]
        pub struct Fields<F>
        where
            F: Float,
            StandardNormal: Distribution<F>,
            Exp1: Distribution<F>,
            Open01: Distribution<F>,
        {
            $(pub $field: $type,)+
        }

        impl<F> $sampler<F>
        where
            F: Float,
            StandardNormal: Distribution<F>,
            Exp1: Distribution<F>,
            Open01: Distribution<F>,
        {
            pub fn from_fields(fields: Fields<F>) -> Self {
                let Fields { $($field,)+ } = fields;
                $sampler { $($field,)+ }
            }

            pub fn fields(&self) -> Fields<F> {
                let $sampler { $($field,)+ } = *self;
                Fields { $($field,)+ }
            }
        }
    };
}

mod exponential;
pub mod multi;

include!(concat!(env!("OUT_DIR"), "/modules.rs"));

pub use rand::distr::{Distribution, Open01};

pub use beta::raw::Fields as BetaFields;
pub use beta::{Beta, Error as BetaError};
pub use chi_squared::raw::Fields as ChiSquaredFields;
pub use chi_squared::{ChiSquared, Error as ChiSquaredError};
pub use exponential::{Error as ExpError, Exp, Exp1};
pub use fisher_f::raw::Fields as FisherFFields;
pub use fisher_f::{Error as FisherFError, FisherF};
pub use gamma::raw::Fields as GammaFields;
pub use gamma::{Error as GammaError, Gamma};
pub use pert::raw::Fields as PertFields;
pub use pert::{Pert, PertError};
pub use student_t::raw::Fields as StudentTFields;
pub use student_t::StudentT;

/// A normal of mean 0 and deviation 1. The ziggurat that makes one is left out: normals are lent.
#[derive(Clone, Copy, Debug)]
pub struct StandardNormal;

impl Distribution<f64> for StandardNormal {
    #[inline]
    fn sample<R: rand::Rng + ?Sized>(&self, rng: &mut R) -> f64 {
        rng.normal()
    }
}
