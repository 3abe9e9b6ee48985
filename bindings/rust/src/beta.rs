//! rand_distr's `beta.rs`.

use crate::{sys, BetaMade, Draws, Positions, Refusal};

/// The Beta distribution. It reads two uniforms a trial.
///
/// ```
/// use ewebasket::{Beta, Draws, Positions};
///
/// let draws = Draws { uniforms: &[0.9375, 0.9375, 0.5, 0.5], ..Draws::default() };
/// let (sample, after) = Beta::new(0.5, 0.5)?.sample(&draws, Positions::default())?;
/// assert_eq!(sample, 0.5);
/// assert_eq!(after.uniforms, 4); // the first trial was rejected
/// # Ok::<(), ewebasket::Refusal>(())
/// ```
#[derive(Clone, Copy, Debug, PartialEq)]
pub struct Beta {
    alpha: f64,
    beta: f64,
}

impl Beta {
    /// Refused by 3 where alpha is not above 0, then by 4 where beta is not.
    ///
    /// ```
    /// # use ewebasket::Beta;
    /// assert!(Beta::new(1e200, 1e200).is_ok());
    /// assert_eq!(Beta::new(-1.0, 0.0).unwrap_err().number, 3);
    /// assert_eq!(Beta::new(1.0, f64::NAN).unwrap_err().number, 4);
    /// ```
    pub fn new(alpha: f64, beta: f64) -> Result<Self, Refusal> {
        let beta = Beta { alpha, beta };
        beta.fill(&Draws::default(), Positions::default(), &mut [])?;
        Ok(beta)
    }

    /// What the constructor made.
    ///
    /// ```
    /// # use ewebasket::Beta;
    /// let made = Beta::new(5.0, 2.0)?.made();
    /// assert_eq!((made.a, made.b, made.switched_params), (2.0, 5.0, true));
    /// # Ok::<(), ewebasket::Refusal>(())
    /// ```
    pub fn made(&self) -> BetaMade {
        let (kinds, fields) = sys::eweb_beta_made(self.alpha, self.beta);
        BetaMade::told(kinds, fields)
    }

    /// One sample, and the positions past its draws. Refused by 17, 18 or 19. For normal alpha and beta whose sum, rounded, is
    /// finite, every sample lies from 0 to 1; subnormal parameters and those whose sum overflows are not covered:
    /// Beta(5e-324, 1) and Beta(1e308, 1e308) can give NaN.
    ///
    /// ```
    /// # use ewebasket::{Beta, Draws, Positions};
    /// let draws = Draws { uniforms: &[0.5, 0.5], ..Draws::default() };
    /// let (sample, after) = Beta::new(5.0, 2.0)?.sample(&draws, Positions::default())?;
    /// assert_eq!((sample, after.uniforms), (5.0 / 7.0, 2));
    /// # Ok::<(), ewebasket::Refusal>(())
    /// ```
    pub fn sample(&self, draws: &Draws, at: Positions) -> Result<(f64, Positions), Refusal> {
        let mut out = [0.0];
        let after = sys::eweb_beta_sample(self.alpha, self.beta, draws, at, &mut out)?;
        Ok((out[0], after))
    }

    /// A sample into each element of `out`, in order, and the positions past the draws of all. Refused as
    /// [`Gamma::fill`](crate::Gamma::fill) is.
    ///
    /// ```
    /// # use ewebasket::{Beta, Draws, Positions};
    /// let draws = Draws { uniforms: &[0.5; 4], ..Draws::default() };
    /// let mut out = [0.0; 2];
    /// let after = Beta::new(2.0, 5.0)?.fill(&draws, Positions::default(), &mut out)?;
    /// assert_eq!((out, after.uniforms), ([2.0 / 7.0; 2], 4));
    /// # Ok::<(), ewebasket::Refusal>(())
    /// ```
    pub fn fill(
        &self,
        draws: &Draws,
        at: Positions,
        out: &mut [f64],
    ) -> Result<Positions, Refusal> {
        sys::eweb_beta_fill(self.alpha, self.beta, draws, at, out)
    }
}
