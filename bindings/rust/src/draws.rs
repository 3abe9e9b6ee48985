//! What a call is lent.

/// The draws that a sampler reads, in three slices; any of them may be empty.
///
/// A uniform is usable strictly between 0 and 1, a normal where it is finite, an exponential where it is finite and above 0.
/// Only the draw needed next is examined, so that what stands behind it changes nothing.
///
/// ```
/// use ewebasket::{Draws, Gamma, Positions};
///
/// let draws = Draws { exponentials: &[1.0, f64::NAN], ..Draws::default() };
/// let (sample, _) = Gamma::new(1.0, 2.0)?.sample(&draws, Positions::default())?;
/// assert_eq!(sample, 2.0);
/// # Ok::<(), ewebasket::Refusal>(())
/// ```
#[derive(Clone, Copy, Debug, Default)]
pub struct Draws<'a> {
    /// Draws of the uniform distribution on (0, 1).
    pub uniforms: &'a [f64],
    /// Draws of the standard normal distribution.
    pub normals: &'a [f64],
    /// Draws of the exponential distribution of rate 1.
    pub exponentials: &'a [f64],
}

/// A position in each slice of [`Draws`]: the index of the draw to be read next. The default is the start of each.
///
/// ```
/// use ewebasket::{ChiSquared, Draws, Positions};
///
/// let draws = Draws { normals: &[3.0, 2.0], ..Draws::default() };
/// let chi_squared = ChiSquared::new(1.0)?;
/// let (first, after) = chi_squared.sample(&draws, Positions::default())?;
/// let (second, after) = chi_squared.sample(&draws, after)?;
/// assert_eq!((first, second), (9.0, 4.0));
/// assert_eq!(after, Positions { normals: 2, ..Positions::default() });
/// # Ok::<(), ewebasket::Refusal>(())
/// ```
#[derive(Clone, Copy, Debug, Default, PartialEq, Eq, Hash)]
pub struct Positions {
    /// The position in [`Draws::uniforms`].
    pub uniforms: usize,
    /// The position in [`Draws::normals`].
    pub normals: usize,
    /// The position in [`Draws::exponentials`].
    pub exponentials: usize,
}
