//! rand_distr's `multi/dirichlet.rs`.

use crate::{sys, Draws, Positions, Refusal};

/// The Dirichlet distribution. Where every element of alpha is at most 0.1 it reads uniforms, as [`crate::Beta`] does; else what
/// Gamma(alpha\[i\], 1) reads, in order.
///
/// ```
/// use ewebasket::{Dirichlet, Draws, Positions};
///
/// let draws = Draws { exponentials: &[1.0, 3.0], ..Draws::default() };
/// let (vector, after) = Dirichlet::new(&[1.0, 1.0])?.sample(&draws, Positions::default())?;
/// assert_eq!(vector, [0.25, 0.75]);
/// assert_eq!(after.exponentials, 2);
/// # Ok::<(), ewebasket::Refusal>(())
/// ```
#[derive(Clone, Debug, PartialEq)]
pub struct Dirichlet {
    alpha: Box<[f64]>,
}

impl Dirichlet {
    /// Refused by 11 where alpha has fewer than 2 elements and by 15 where it has more than 4,096; then by the first element that
    /// is not above 0 (12), infinite (13) or subnormal (14), with its index.
    ///
    /// ```
    /// # use ewebasket::Dirichlet;
    /// assert!(Dirichlet::new(&[1.0; 4096]).is_ok());
    /// assert_eq!(Dirichlet::new(&[1.0]).unwrap_err().number, 11);
    /// let refusal = Dirichlet::new(&[1.0, f64::INFINITY, 0.0]).unwrap_err();
    /// assert_eq!((refusal.number, refusal.index), (13, Some(1)));
    /// ```
    pub fn new(alpha: &[f64]) -> Result<Self, Refusal> {
        // All that can be wrong with alpha comes before 16, and an alpha with nothing wrong has at least two elements: an output
        // of none is then refused by 16, before a draw is looked at.
        match sys::eweb_dirichlet(alpha, &Draws::default(), Positions::default(), &mut []) {
            Err(Refusal { number: 16, .. }) => Ok(Dirichlet {
                alpha: alpha.into(),
            }),
            Err(refusal) => Err(refusal),
            Ok(_) => unreachable!("an output as long as alpha, of no element, is refused by 11"),
        }
    }

    /// One vector, a component for each element of alpha, and the positions past its draws. Refused by 17, 18 or 19.
    ///
    /// ```
    /// # use ewebasket::{Dirichlet, Draws, Positions};
    /// let draws = Draws { uniforms: &[0.5, 0.5], ..Draws::default() };
    /// let (vector, after) = Dirichlet::new(&[0.1, 0.1])?.sample(&draws, Positions::default())?;
    /// assert_eq!((vector, after.uniforms), (vec![0.5, 0.5], 2));
    /// # Ok::<(), ewebasket::Refusal>(())
    /// ```
    pub fn sample(&self, draws: &Draws, at: Positions) -> Result<(Vec<f64>, Positions), Refusal> {
        let mut vector = vec![0.0; self.alpha.len()];
        let after = self.fill(draws, at, &mut vector)?;
        Ok((vector, after))
    }

    /// One vector into `out`, and the positions past its draws. Refused by 16 where `out` is not as long as alpha, and by 17, which
    /// leave `out` as it was; by 18 or 19, after which every element is +0.
    ///
    /// ```
    /// # use ewebasket::{Dirichlet, Draws, Positions};
    /// let draws = Draws { exponentials: &[1.0, 3.0], ..Draws::default() };
    /// let dirichlet = Dirichlet::new(&[1.0, 1.0])?;
    /// let mut out = [9.0; 3];
    /// let after = dirichlet.fill(&draws, Positions::default(), &mut out[..2])?;
    /// assert_eq!((out, after.exponentials), ([0.25, 0.75, 9.0], 2));
    /// assert_eq!(dirichlet.fill(&draws, after, &mut out).unwrap_err().number, 16);
    /// # Ok::<(), ewebasket::Refusal>(())
    /// ```
    pub fn fill(
        &self,
        draws: &Draws,
        at: Positions,
        out: &mut [f64],
    ) -> Result<Positions, Refusal> {
        sys::eweb_dirichlet(&self.alpha, draws, at, out)
    }
}
