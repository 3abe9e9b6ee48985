//! The four functions that the samplers rest on.

use crate::sys;

/// The natural logarithm by document 01's steps. NaN below 0, minus infinity at either zero.
///
/// ```
/// assert_eq!(ewebasket::ln(1.0).to_bits(), 0);
/// assert_eq!(ewebasket::ln(-1.0).to_bits(), 0x7ff8_0000_0000_0000);
/// ```
pub fn ln(x: f64) -> f64 {
    sys::eweb_ln(x)
}

/// e to the power x by document 01's steps. Plus infinity from 710 up, +0 from -746 down; subnormal from about -745.13 up to
/// -708.4.
///
/// ```
/// assert_eq!(ewebasket::exp(0.0), 1.0);
/// assert_eq!(ewebasket::exp(710.0), f64::INFINITY);
/// assert_eq!(ewebasket::exp(-745.0).to_bits(), 1);
/// assert_eq!(ewebasket::exp(-746.0).to_bits(), 0);
/// ```
pub fn exp(x: f64) -> f64 {
    sys::eweb_exp(x)
}

/// [`exp`] of the rounded product of y and [`ln`] of u, for any u and y. Unlike [`f64::powf`] it is NaN at (1, infinity) and at
/// (0, 0).
///
/// ```
/// assert_eq!(ewebasket::powf(1.0, 3.0), 1.0);
/// assert!(ewebasket::powf(1.0, f64::INFINITY).is_nan());
/// ```
pub fn powf(u: f64, y: f64) -> f64 {
    sys::eweb_powf(u, y)
}

/// The square root, correctly rounded as IEEE 754 asks.
///
/// ```
/// assert_eq!(ewebasket::sqrt(2.0), 2.0_f64.sqrt());
/// ```
pub fn sqrt(x: f64) -> f64 {
    sys::eweb_sqrt(x)
}
