//! `Exp` is not among the seven modules. Assumed of it, by document 01 and by the crate's older versions: it keeps 1/rate and
//! a sample is an exponential times that; it refuses a rate below 0 or NaN and no other, so that a rate of 0 keeps +inf.

use num_traits::Float;
use rand::{distr::Distribution, Rng, RngExt};

/// An exponential of rate 1. The ziggurat that makes one is left out: exponentials are lent.
#[derive(Clone, Copy, Debug)]
pub struct Exp1;

impl Distribution<f64> for Exp1 {
    #[inline]
    fn sample<R: Rng + ?Sized>(&self, rng: &mut R) -> f64 {
        rng.exponential()
    }
}

#[derive(Clone, Copy, Debug, PartialEq)]
pub struct Exp<F>
where
    F: Float,
    Exp1: Distribution<F>,
{
    pub(crate) inverse_rate: F,
}

#[derive(Clone, Copy, Debug, PartialEq, Eq)]
pub enum Error {
    /// Below 0 or NaN.
    Rate,
}

impl<F> Exp<F>
where
    F: Float,
    Exp1: Distribution<F>,
{
    #[inline]
    pub fn new(rate: F) -> Result<Exp<F>, Error> {
        if !(rate >= F::zero()) {
            return Err(Error::Rate);
        }
        let inverse_rate = F::one() / rate;
        Ok(Exp { inverse_rate })
    }
}

impl<F> Distribution<F> for Exp<F>
where
    F: Float,
    Exp1: Distribution<F>,
{
    #[inline]
    fn sample<R: Rng + ?Sized>(&self, rng: &mut R) -> F {
        let exponential: F = rng.sample(Exp1);
        exponential * self.inverse_rate
    }
}
