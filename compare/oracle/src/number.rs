//! The number type at which the Rust is run.

use compare::kernels;
use num_traits::{Float, NumCast};
use std::cmp::Ordering;
use std::hint::black_box;
use std::ops::{Add, Div, Mul, Sub};

/// An f64 whose ln, exp, powf and sqrt are document 01's kernels. All else is f64's own, each operation rounded once.
#[derive(Clone, Copy, Debug, Default, PartialEq)]
pub struct K(pub f64);

/// The bits handed out: every NaN is the one NaN.
pub fn bits(x: K) -> u64 {
    // The compiler holds one NaN for as good as another, so it must not see where x comes from.
    let word = black_box(x.0).to_bits();
    if f64::from_bits(word).is_nan() {
        kernels::NAN
    } else {
        word
    }
}

/// A NaN's own bits, so that every one can be asked.
pub fn own(x: K) -> u64 {
    x.0.to_bits()
}

macro_rules! operation {
    ($operation:ident, $method:ident) => {
        impl $operation for K {
            type Output = K;

            #[inline]
            fn $method(self, other: K) -> K {
                K(self.0.$method(other.0))
            }
        }
    };
}

operation!(Add, add);
operation!(Sub, sub);
operation!(Mul, mul);
operation!(Div, div);

impl PartialOrd for K {
    #[inline]
    fn partial_cmp(&self, other: &K) -> Option<Ordering> {
        self.0.partial_cmp(&other.0)
    }

    #[inline]
    fn lt(&self, other: &K) -> bool {
        self.0 < other.0
    }

    #[inline]
    fn le(&self, other: &K) -> bool {
        self.0 <= other.0
    }

    #[inline]
    fn gt(&self, other: &K) -> bool {
        self.0 > other.0
    }

    #[inline]
    fn ge(&self, other: &K) -> bool {
        self.0 >= other.0
    }
}

impl NumCast for K {
    #[inline]
    fn from(number: f64) -> Option<K> {
        Some(K(number))
    }
}

impl Float for K {
    #[inline]
    fn zero() -> K {
        K(0.0)
    }

    #[inline]
    fn one() -> K {
        K(1.0)
    }

    #[inline]
    fn infinity() -> K {
        K(f64::INFINITY)
    }

    #[inline]
    fn is_infinite(self) -> bool {
        self.0.is_infinite()
    }

    #[inline]
    fn is_normal(self) -> bool {
        self.0.is_normal()
    }

    #[inline]
    fn ln(self) -> K {
        K(kernels::ln(self.0))
    }

    #[inline]
    fn exp(self) -> K {
        K(kernels::exp(self.0))
    }

    #[inline]
    fn powf(self, exponent: K) -> K {
        K(kernels::powf(self.0, exponent.0))
    }

    #[inline]
    fn sqrt(self) -> K {
        K(kernels::sqrt(self.0))
    }
}
