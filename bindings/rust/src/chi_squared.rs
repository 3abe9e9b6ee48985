//! rand_distr's `chi_squared.rs`.

use crate::{sys, Draws, Positions, Refusal};

/// The chi-squared distribution of k degrees of freedom. At k = 1 it is a normal squared; else it reads what Gamma(0.5·k, 2) reads.
///
/// ```
/// use ewebasket::{ChiSquared, Draws, Positions};
///
/// // Two degrees of freedom: Gamma(1, 2), an exponential times 2.
/// let draws = Draws { exponentials: &[3.0], ..Draws::default() };
/// let (sample, _) = ChiSquared::new(2.0)?.sample(&draws, Positions::default())?;
/// assert_eq!(sample, 6.0);
/// # Ok::<(), ewebasket::Refusal>(())
/// ```
#[derive(Clone, Copy, Debug, PartialEq)]
pub struct ChiSquared {
    k: f64,
}

impl ChiSquared {
    /// Refused by 5 where k is not 1 and 0.5·k is not above 0, as at the smallest number above 0.
    ///
    /// ```
    /// # use ewebasket::ChiSquared;
    /// assert!(ChiSquared::new(0.5).is_ok());
    /// assert_eq!(ChiSquared::new(f64::from_bits(1)).unwrap_err().number, 5);
    /// ```
    pub fn new(k: f64) -> Result<Self, Refusal> {
        let chi_squared = ChiSquared { k };
        chi_squared.fill(&Draws::default(), Positions::default(), &mut [])?;
        Ok(chi_squared)
    }

    /// One sample, and the positions past its draws. Refused by 17, 18 or 19.
    ///
    /// ```
    /// # use ewebasket::{ChiSquared, Draws, Positions};
    /// let draws = Draws { normals: &[3.0], ..Draws::default() };
    /// let (sample, after) = ChiSquared::new(1.0)?.sample(&draws, Positions::default())?;
    /// assert_eq!((sample, after.normals), (9.0, 1));
    /// # Ok::<(), ewebasket::Refusal>(())
    /// ```
    pub fn sample(&self, draws: &Draws, at: Positions) -> Result<(f64, Positions), Refusal> {
        let mut out = [0.0];
        let after = sys::eweb_chi_squared_sample(self.k, draws, at, &mut out)?;
        Ok((out[0], after))
    }

    /// A sample into each element of `out`, in order, and the positions past the draws of all. Refused as
    /// [`Gamma::fill`](crate::Gamma::fill) is.
    ///
    /// ```
    /// # use ewebasket::{ChiSquared, Draws, Positions};
    /// let draws = Draws { normals: &[3.0, -2.0], ..Draws::default() };
    /// let mut out = [0.0; 2];
    /// let after = ChiSquared::new(1.0)?.fill(&draws, Positions::default(), &mut out)?;
    /// assert_eq!((out, after.normals), ([9.0, 4.0], 2));
    /// # Ok::<(), ewebasket::Refusal>(())
    /// ```
    pub fn fill(
        &self,
        draws: &Draws,
        at: Positions,
        out: &mut [f64],
    ) -> Result<Positions, Refusal> {
        sys::eweb_chi_squared_fill(self.k, draws, at, out)
    }
}
