//! What the Dirichlet module names of the real crate's `multi`.

use rand::Rng;

pub trait MultiDistribution<T> {
    fn sample_len(&self) -> usize;
    fn sample_to_slice<R: Rng + ?Sized>(&self, rng: &mut R, output: &mut [T]);
}

/// The body of a `Distribution` of vectors: one vector, sampled into a slice of its own.
macro_rules! distribution_impl {
    ($number:ident) => {
        fn sample<R: Rng + ?Sized>(&self, rng: &mut R) -> Vec<$number> {
            let mut output = vec![$number::default(); self.sample_len()];
            self.sample_to_slice(rng, &mut output);
            output
        }
    };
}

include!(concat!(env!("OUT_DIR"), "/multi.rs"));

pub use dirichlet::raw::Fields as DirichletFields;
pub use dirichlet::{Dirichlet, Error as DirichletError};
