//! As much of rand as the seven modules of rand_distr name.

use distr::Distribution;

/// The real generator hands out random words. This one hands out the three kinds of draw that document 01 lends.
pub trait Rng {
    fn uniform(&mut self) -> f64;
    fn normal(&mut self) -> f64;
    fn exponential(&mut self) -> f64;
}

pub trait RngExt: Rng {
    /// As the real one: the distribution draws from this generator, and nothing else is drawn.
    #[inline]
    fn sample<T, D: Distribution<T>>(&mut self, distribution: D) -> T {
        distribution.sample(self)
    }
}

impl<R: Rng + ?Sized> RngExt for R {}

pub mod distr {
    use crate::Rng;

    pub trait Distribution<T> {
        fn sample<R: Rng + ?Sized>(&self, rng: &mut R) -> T;
    }

    /// A uniform strictly between 0 and 1.
    #[derive(Clone, Copy, Debug)]
    pub struct Open01;

    impl Distribution<f64> for Open01 {
        #[inline]
        fn sample<R: Rng + ?Sized>(&self, rng: &mut R) -> f64 {
            rng.uniform()
        }
    }
}
