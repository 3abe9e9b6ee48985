//! rand_distr's `gamma.rs`.

use crate::{sys, Draws, GammaMade, Positions, Refusal};

/// The Gamma distribution. It reads normals and uniforms; at shape 1, or where a parameter is infinite, an exponential.
///
/// ```
/// use ewebasket::{Draws, Gamma, Positions};
///
/// // The first normal is rejected, and takes no uniform.
/// let draws = Draws { uniforms: &[0.5], normals: &[-4.0, 0.0], ..Draws::default() };
/// let (sample, after) = Gamma::new(2.0, 1.0)?.sample(&draws, Positions::default())?;
/// assert_eq!(sample, 2.0 - 1.0 / 3.0);
/// assert_eq!((after.uniforms, after.normals), (1, 2));
/// # Ok::<(), ewebasket::Refusal>(())
/// ```
#[derive(Clone, Copy, Debug, PartialEq)]
pub struct Gamma {
    shape: f64,
    scale: f64,
}

impl Gamma {
    /// Refused by 1 where the shape is not above 0, then by 2 where the scale is not.
    ///
    /// ```
    /// # use ewebasket::Gamma;
    /// assert!(Gamma::new(f64::INFINITY, 1.0).is_ok());
    /// assert_eq!(Gamma::new(0.0, 0.0).unwrap_err().number, 1);
    /// assert_eq!(Gamma::new(1.0, 0.0).unwrap_err().number, 2);
    /// ```
    pub fn new(shape: f64, scale: f64) -> Result<Self, Refusal> {
        let gamma = Gamma { shape, scale };
        // A fill of no element uses no draw, and so is refused by the constructor or not at all; the samplers below do the same.
        gamma.fill(&Draws::default(), Positions::default(), &mut [])?;
        Ok(gamma)
    }

    /// What the constructor made.
    ///
    /// ```
    /// # use ewebasket::{Gamma, GammaMade};
    /// assert!(matches!(Gamma::new(2.0, 1.0)?.made(), GammaMade::Large { scale: 1.0, .. }));
    /// # Ok::<(), ewebasket::Refusal>(())
    /// ```
    pub fn made(&self) -> GammaMade {
        let ([kind], fields) = sys::eweb_gamma_made(self.shape, self.scale);
        GammaMade::told(kind, fields)
    }

    /// One sample, and the positions past its draws. Refused by 17, 18 or 19.
    ///
    /// ```
    /// # use ewebasket::{Draws, Gamma, Positions};
    /// let draws = Draws { exponentials: &[1.0], ..Draws::default() };
    /// let (sample, after) = Gamma::new(1.0, 2.0)?.sample(&draws, Positions::default())?;
    /// assert_eq!((sample, after.exponentials), (2.0, 1));
    /// # Ok::<(), ewebasket::Refusal>(())
    /// ```
    pub fn sample(&self, draws: &Draws, at: Positions) -> Result<(f64, Positions), Refusal> {
        let mut out = [0.0];
        let after = sys::eweb_gamma_sample(self.shape, self.scale, draws, at, &mut out)?;
        Ok((out[0], after))
    }

    /// A sample into each element of `out`, in order, and the positions past the draws of all. Refused by 17, which leaves `out`
    /// as it was, and by 18 or 19, after which every element is +0.
    ///
    /// ```
    /// # use ewebasket::{Draws, Gamma, Positions};
    /// let draws = Draws { exponentials: &[1.0, 0.5, 3.0], ..Draws::default() };
    /// let mut out = [9.0; 2];
    /// let gamma = Gamma::new(1.0, 2.0)?;
    /// let after = gamma.fill(&draws, Positions::default(), &mut out)?;
    /// assert_eq!((out, after.exponentials), ([2.0, 1.0], 2));
    /// assert_eq!(gamma.fill(&draws, after, &mut out).unwrap_err().number, 19);
    /// assert_eq!(out, [0.0; 2]);
    /// # Ok::<(), ewebasket::Refusal>(())
    /// ```
    pub fn fill(
        &self,
        draws: &Draws,
        at: Positions,
        out: &mut [f64],
    ) -> Result<Positions, Refusal> {
        sys::eweb_gamma_fill(self.shape, self.scale, draws, at, out)
    }
}
