//! rand_distr's `student_t.rs`.

use crate::{sys, Draws, Positions, Refusal};

/// Student's t distribution of nu degrees of freedom. It reads a normal, then what [`crate::ChiSquared`] reads.
///
/// ```
/// use ewebasket::{Draws, Positions, StudentT};
///
/// let draws = Draws { normals: &[3.0, 2.0], ..Draws::default() };
/// let (sample, after) = StudentT::new(1.0)?.sample(&draws, Positions::default())?;
/// assert_eq!(sample, 1.5);
/// assert_eq!(after.normals, 2);
/// # Ok::<(), ewebasket::Refusal>(())
/// ```
#[derive(Clone, Copy, Debug, PartialEq)]
pub struct StudentT {
    nu: f64,
}

impl StudentT {
    /// Refused by 5 where nu is not 1 and 0.5·nu is not above 0.
    ///
    /// ```
    /// # use ewebasket::StudentT;
    /// assert!(StudentT::new(11.0).is_ok());
    /// assert_eq!(StudentT::new(0.0).unwrap_err().number, 5);
    /// ```
    pub fn new(nu: f64) -> Result<Self, Refusal> {
        let student_t = StudentT { nu };
        student_t.fill(&Draws::default(), Positions::default(), &mut [])?;
        Ok(student_t)
    }

    /// One sample, and the positions past its draws. Refused by 17, 18 or 19.
    ///
    /// ```
    /// # use ewebasket::{Draws, Positions, StudentT};
    /// let draws = Draws { normals: &[3.0], exponentials: &[4.0], ..Draws::default() };
    /// let (sample, after) = StudentT::new(2.0)?.sample(&draws, Positions::default())?;
    /// assert_eq!((sample, after.exponentials), (1.5, 1));
    /// # Ok::<(), ewebasket::Refusal>(())
    /// ```
    pub fn sample(&self, draws: &Draws, at: Positions) -> Result<(f64, Positions), Refusal> {
        let mut out = [0.0];
        let after = sys::eweb_student_t_sample(self.nu, draws, at, &mut out)?;
        Ok((out[0], after))
    }

    /// A sample into each element of `out`, in order, and the positions past the draws of all. Refused as
    /// [`Gamma::fill`](crate::Gamma::fill) is.
    ///
    /// ```
    /// # use ewebasket::{Draws, Positions, StudentT};
    /// let draws = Draws { normals: &[3.0, 2.0, -1.0, 4.0], ..Draws::default() };
    /// let mut out = [0.0; 2];
    /// let after = StudentT::new(1.0)?.fill(&draws, Positions::default(), &mut out)?;
    /// assert_eq!((out, after.normals), ([1.5, -0.25], 4));
    /// # Ok::<(), ewebasket::Refusal>(())
    /// ```
    pub fn fill(
        &self,
        draws: &Draws,
        at: Positions,
        out: &mut [f64],
    ) -> Result<Positions, Refusal> {
        sys::eweb_student_t_fill(self.nu, draws, at, out)
    }
}
