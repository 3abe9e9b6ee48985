//! rand_distr's `pert.rs`.

use crate::{sys, Draws, PertMade, Positions, Refusal};

// rand_distr's.
const DEFAULT_SHAPE: f64 = 4.0;

/// The PERT distribution. It reads uniforms, as its Beta distribution does.
///
/// ```
/// use ewebasket::{Draws, Pert, Positions};
///
/// let draws = Draws { uniforms: &[0.5, 0.5], ..Draws::default() };
/// let pert = Pert::new(0.0, 10.0).with_mode(5.0)?;
/// let (sample, after) = pert.sample(&draws, Positions::default())?;
/// assert_eq!((sample, after.uniforms), (5.0, 2));
/// # Ok::<(), ewebasket::Refusal>(())
/// ```
#[derive(Clone, Copy, Debug, PartialEq)]
pub struct Pert {
    ends: PertBuilder,
    middle: Middle,
}

#[derive(Clone, Copy, Debug, PartialEq)]
enum Middle {
    Mode(f64),
    Mean(f64),
}

/// A PERT distribution's ends and shape, to which [`with_mode`](Self::with_mode) or [`with_mean`](Self::with_mean) adds what is
/// missing, and which only these two judge.
///
/// ```
/// use ewebasket::Pert;
///
/// let builder = Pert::new(0.0, 10.0).with_shape(3.5);
/// assert!(builder.with_mode(3.0).is_ok());
/// assert!(builder.with_mean(5.0).is_ok());
/// ```
#[derive(Clone, Copy, Debug, PartialEq)]
pub struct PertBuilder {
    min: f64,
    max: f64,
    shape: f64,
}

impl Pert {
    /// From min to max, of shape 4. What is wrong with them is said once the mode or the mean is named.
    ///
    /// ```
    /// # use ewebasket::Pert;
    /// assert_eq!(Pert::new(1.0, 1.0).with_mode(1.0).unwrap_err().number, 8);
    /// ```
    #[allow(clippy::new_ret_no_self)] // rand_distr's name
    pub fn new(min: f64, max: f64) -> PertBuilder {
        PertBuilder {
            min,
            max,
            shape: DEFAULT_SHAPE,
        }
    }

    /// What the builder made.
    ///
    /// ```
    /// # use ewebasket::Pert;
    /// let builder = Pert::new(0.0, 10.0);
    /// assert_eq!(builder.with_mode(5.0)?.made(), builder.with_mean(5.0)?.made());
    /// # Ok::<(), ewebasket::Refusal>(())
    /// ```
    pub fn made(&self) -> PertMade {
        let PertBuilder { min, max, shape } = self.ends;
        let (kinds, fields) = match self.middle {
            Middle::Mode(mode) => sys::eweb_pert_mode_made(min, max, shape, mode),
            Middle::Mean(mean) => sys::eweb_pert_mean_made(min, max, shape, mean),
        };
        PertMade::told(kinds, fields)
    }

    /// One sample, and the positions past its draws. Refused by 17, 18 or 19.
    ///
    /// ```
    /// # use ewebasket::{Draws, Pert, Positions};
    /// let draws = Draws { uniforms: &[0.5, 0.5], ..Draws::default() };
    /// let pert = Pert::new(-1.0, 1.0).with_mean(0.0)?;
    /// assert_eq!(pert.sample(&draws, Positions::default())?.0, 0.0);
    /// # Ok::<(), ewebasket::Refusal>(())
    /// ```
    pub fn sample(&self, draws: &Draws, at: Positions) -> Result<(f64, Positions), Refusal> {
        let PertBuilder { min, max, shape } = self.ends;
        let mut out = [0.0];
        let after = match self.middle {
            Middle::Mode(mode) => {
                sys::eweb_pert_mode_sample(min, max, shape, mode, draws, at, &mut out)?
            }
            Middle::Mean(mean) => {
                sys::eweb_pert_mean_sample(min, max, shape, mean, draws, at, &mut out)?
            }
        };
        Ok((out[0], after))
    }

    /// A sample into each element of `out`, in order, and the positions past the draws of all. Refused as
    /// [`Gamma::fill`](crate::Gamma::fill) is.
    ///
    /// ```
    /// # use ewebasket::{Draws, Pert, Positions};
    /// let draws = Draws { uniforms: &[0.5; 4], ..Draws::default() };
    /// let mut out = [0.0; 2];
    /// let after = Pert::new(0.0, 10.0).with_mode(5.0)?.fill(&draws, Positions::default(), &mut out)?;
    /// assert_eq!((out, after.uniforms), ([5.0; 2], 4));
    /// # Ok::<(), ewebasket::Refusal>(())
    /// ```
    pub fn fill(
        &self,
        draws: &Draws,
        at: Positions,
        out: &mut [f64],
    ) -> Result<Positions, Refusal> {
        let PertBuilder { min, max, shape } = self.ends;
        match self.middle {
            Middle::Mode(mode) => sys::eweb_pert_mode_fill(min, max, shape, mode, draws, at, out),
            Middle::Mean(mean) => sys::eweb_pert_mean_fill(min, max, shape, mean, draws, at, out),
        }
    }
}

impl PertBuilder {
    /// The same ends, of another shape.
    ///
    /// ```
    /// # use ewebasket::Pert;
    /// let builder = Pert::new(0.0, 1.0).with_shape(-1.0);
    /// assert_eq!(builder.with_mode(0.5).unwrap_err().number, 10);
    /// ```
    pub fn with_shape(self, shape: f64) -> PertBuilder {
        PertBuilder { shape, ..self }
    }

    /// The distribution of this mode. Refused by 8 where max is not above min, by 9 where the mode does not lie from min to max,
    /// by 10 where the shape is not at least 0, and by 8 where they make no Beta distribution.
    ///
    /// ```
    /// # use ewebasket::Pert;
    /// assert_eq!(Pert::new(0.0, 1.0).with_mode(2.0).unwrap_err().number, 9);
    /// assert_eq!(Pert::new(0.0, f64::INFINITY).with_mode(2.0).unwrap_err().number, 8);
    /// ```
    pub fn with_mode(self, mode: f64) -> Result<Pert, Refusal> {
        self.judged(Middle::Mode(mode))
    }

    /// The distribution of this mean: its mode is `(((shape + 2)·mean - min) - max)/shape`, judged as one that is named.
    ///
    /// ```
    /// # use ewebasket::Pert;
    /// assert_eq!(Pert::new(0.0, 1.0).with_mean(0.9).unwrap_err().number, 9);
    /// ```
    pub fn with_mean(self, mean: f64) -> Result<Pert, Refusal> {
        self.judged(Middle::Mean(mean))
    }

    fn judged(self, middle: Middle) -> Result<Pert, Refusal> {
        let pert = Pert { ends: self, middle };
        pert.fill(&Draws::default(), Positions::default(), &mut [])?;
        Ok(pert)
    }
}
