//! rand_distr's `fisher_f.rs`.

use crate::{sys, Draws, FisherFMade, Positions, Refusal};

/// Fisher's F distribution of m and n degrees of freedom. The numerator's draws come before the denominator's, each those of
/// [`crate::ChiSquared`].
///
/// ```
/// use ewebasket::{Draws, FisherF, Positions};
///
/// let draws = Draws { normals: &[3.0, 2.0], ..Draws::default() };
/// let (sample, after) = FisherF::new(1.0, 1.0)?.sample(&draws, Positions::default())?;
/// assert_eq!(sample, 9.0 / 4.0);
/// assert_eq!(after.normals, 2);
/// # Ok::<(), ewebasket::Refusal>(())
/// ```
#[derive(Clone, Copy, Debug, PartialEq)]
pub struct FisherF {
    m: f64,
    n: f64,
}

impl FisherF {
    /// Refused by 6 where m is not 1 and 0.5·m is not above 0, then by 7 for n.
    ///
    /// ```
    /// # use ewebasket::FisherF;
    /// assert!(FisherF::new(2.0, 32.0).is_ok());
    /// assert_eq!(FisherF::new(0.0, 0.0).unwrap_err().number, 6);
    /// assert_eq!(FisherF::new(1.0, -2.0).unwrap_err().number, 7);
    /// ```
    pub fn new(m: f64, n: f64) -> Result<Self, Refusal> {
        let fisher_f = FisherF { m, n };
        fisher_f.fill(&Draws::default(), Positions::default(), &mut [])?;
        Ok(fisher_f)
    }

    /// What the constructor made.
    ///
    /// ```
    /// # use ewebasket::{ChiSquaredMade, FisherF};
    /// let made = FisherF::new(4.0, 1.0)?.made();
    /// assert_eq!((made.denom, made.dof_ratio), (ChiSquaredMade::DoFExactlyOne, 0.25));
    /// # Ok::<(), ewebasket::Refusal>(())
    /// ```
    pub fn made(&self) -> FisherFMade {
        let (kinds, fields) = sys::eweb_fisher_f_made(self.m, self.n);
        FisherFMade::told(kinds, fields)
    }

    /// One sample, and the positions past its draws. Refused by 17, 18 or 19.
    ///
    /// ```
    /// # use ewebasket::{Draws, FisherF, Positions};
    /// let draws = Draws { normals: &[2.0], exponentials: &[3.0], ..Draws::default() };
    /// let (sample, _) = FisherF::new(2.0, 1.0)?.sample(&draws, Positions::default())?;
    /// assert_eq!(sample, (6.0 / 4.0) * (1.0 / 2.0));
    /// # Ok::<(), ewebasket::Refusal>(())
    /// ```
    pub fn sample(&self, draws: &Draws, at: Positions) -> Result<(f64, Positions), Refusal> {
        let mut out = [0.0];
        let after = sys::eweb_fisher_f_sample(self.m, self.n, draws, at, &mut out)?;
        Ok((out[0], after))
    }

    /// A sample into each element of `out`, in order, and the positions past the draws of all. Refused as
    /// [`Gamma::fill`](crate::Gamma::fill) is.
    ///
    /// ```
    /// # use ewebasket::{Draws, FisherF, Positions};
    /// let draws = Draws { normals: &[3.0, 2.0, 1.0, 4.0], ..Draws::default() };
    /// let mut out = [0.0; 2];
    /// let after = FisherF::new(1.0, 1.0)?.fill(&draws, Positions::default(), &mut out)?;
    /// assert_eq!((out, after.normals), ([2.25, 0.0625], 4));
    /// # Ok::<(), ewebasket::Refusal>(())
    /// ```
    pub fn fill(
        &self,
        draws: &Draws,
        at: Positions,
        out: &mut [f64],
    ) -> Result<Positions, Refusal> {
        sys::eweb_fisher_f_fill(self.m, self.n, draws, at, out)
    }
}
