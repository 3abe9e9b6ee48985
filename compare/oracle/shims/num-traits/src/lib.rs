//! As much of num-traits as the seven modules of rand_distr name.

use core::ops::{Add, Div, Mul, Sub};

/// The real trait takes any primitive number. The modules give it literals only, and those are f64 there too.
pub trait NumCast: Sized {
    fn from(number: f64) -> Option<Self>;
}

pub trait Float:
    NumCast
    + Copy
    + PartialOrd
    + Add<Output = Self>
    + Sub<Output = Self>
    + Mul<Output = Self>
    + Div<Output = Self>
{
    fn zero() -> Self;
    fn one() -> Self;
    fn infinity() -> Self;
    fn is_infinite(self) -> bool;
    fn is_normal(self) -> bool;
    fn ln(self) -> Self;
    fn exp(self) -> Self;
    fn powf(self, exponent: Self) -> Self;
    fn sqrt(self) -> Self;
}

impl NumCast for f64 {
    #[inline]
    fn from(number: f64) -> Option<f64> {
        Some(number)
    }
}

// The platform's functions, as the real trait has them.
impl Float for f64 {
    #[inline]
    fn zero() -> f64 {
        0.0
    }

    #[inline]
    fn one() -> f64 {
        1.0
    }

    #[inline]
    fn infinity() -> f64 {
        f64::INFINITY
    }

    #[inline]
    fn is_infinite(self) -> bool {
        f64::is_infinite(self)
    }

    #[inline]
    fn is_normal(self) -> bool {
        f64::is_normal(self)
    }

    #[inline]
    fn ln(self) -> f64 {
        f64::ln(self)
    }

    #[inline]
    fn exp(self) -> f64 {
        f64::exp(self)
    }

    #[inline]
    fn powf(self, exponent: f64) -> f64 {
        f64::powf(self, exponent)
    }

    #[inline]
    fn sqrt(self) -> f64 {
        f64::sqrt(self)
    }
}
