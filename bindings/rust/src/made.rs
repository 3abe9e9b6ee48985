//! What a constructor made: the kinds and the fields that a sampler keeps, in rand_distr's names.

/// What a [`Gamma`](crate::Gamma) keeps.
///
/// ```
/// use ewebasket::{Gamma, GammaMade};
///
/// assert_eq!(Gamma::new(1.0, 2.0)?.made(), GammaMade::One { lambda_inverse: 2.0 });
/// # Ok::<(), ewebasket::Refusal>(())
/// ```
#[derive(Clone, Copy, Debug, PartialEq)]
#[allow(missing_docs)] // rand_distr's names, and document 01's formulas
pub enum GammaMade {
    /// At shape 1, or where a parameter is infinite: an exponential.
    One { lambda_inverse: f64 },
    /// Below shape 1.
    Small {
        inv_shape: f64,
        scale: f64,
        c: f64,
        d: f64,
    },
    /// Above shape 1.
    Large { scale: f64, c: f64, d: f64 },
}

/// What a chi-squared distribution keeps, within [`FisherFMade`].
///
/// ```
/// use ewebasket::{ChiSquaredMade, FisherF, GammaMade};
///
/// let made = FisherF::new(1.0, 2.0)?.made();
/// assert_eq!(made.numer, ChiSquaredMade::DoFExactlyOne);
/// assert_eq!(made.denom, ChiSquaredMade::DoFAnythingElse(GammaMade::One { lambda_inverse: 2.0 }));
/// # Ok::<(), ewebasket::Refusal>(())
/// ```
#[derive(Clone, Copy, Debug, PartialEq)]
pub enum ChiSquaredMade {
    /// One degree of freedom: a normal squared.
    DoFExactlyOne,
    /// Else a Gamma.
    DoFAnythingElse(GammaMade),
}

/// What a [`Beta`](crate::Beta) keeps.
///
/// ```
/// use ewebasket::{Beta, BetaAlgorithm};
///
/// let made = Beta::new(f64::INFINITY, 0.5)?.made();
/// let BetaAlgorithm::BC { kappa1, .. } = made.algorithm else { panic!("{made:?}") };
/// assert_eq!(kappa1.to_bits(), 0x7ff8_0000_0000_0000); // inf/inf: every NaN handed out has these bits
/// # Ok::<(), ewebasket::Refusal>(())
/// ```
#[derive(Clone, Copy, Debug, PartialEq)]
#[allow(missing_docs)] // rand_distr's names
pub struct BetaMade {
    pub a: f64,
    pub b: f64,
    pub switched_params: bool,
    pub algorithm: BetaAlgorithm,
}

/// A Beta's algorithm, and what it keeps beside a and b.
///
/// ```
/// use ewebasket::{Beta, BetaAlgorithm};
///
/// assert!(matches!(Beta::new(2.0, 5.0)?.made().algorithm, BetaAlgorithm::BB { alpha: 7.0, .. }));
/// # Ok::<(), ewebasket::Refusal>(())
/// ```
#[derive(Clone, Copy, Debug, PartialEq)]
#[allow(missing_docs)] // rand_distr's names
pub enum BetaAlgorithm {
    /// Where both parameters are above 1.
    BB { alpha: f64, beta: f64, gamma: f64 },
    /// Where one is not.
    BC {
        alpha: f64,
        beta: f64,
        kappa1: f64,
        kappa2: f64,
    },
}

/// What a [`FisherF`](crate::FisherF) keeps.
///
/// ```
/// use ewebasket::FisherF;
///
/// assert_eq!(FisherF::new(4.0, 2.0)?.made().dof_ratio, 0.5);
/// # Ok::<(), ewebasket::Refusal>(())
/// ```
#[derive(Clone, Copy, Debug, PartialEq)]
#[allow(missing_docs)] // rand_distr's names
pub struct FisherFMade {
    pub numer: ChiSquaredMade,
    pub denom: ChiSquaredMade,
    pub dof_ratio: f64,
}

/// What a [`Pert`](crate::Pert) keeps.
///
/// ```
/// use ewebasket::Pert;
///
/// let made = Pert::new(-2.0, 10.0).with_mode(5.0)?.made();
/// assert_eq!((made.min, made.range), (-2.0, 12.0));
/// # Ok::<(), ewebasket::Refusal>(())
/// ```
#[derive(Clone, Copy, Debug, PartialEq)]
#[allow(missing_docs)] // rand_distr's names
pub struct PertMade {
    pub min: f64,
    pub range: f64,
    pub beta: BetaMade,
}

// What the cells say, in the order of eweb.h.

impl GammaMade {
    pub(crate) fn told(kind: usize, fields: [f64; 5]) -> Self {
        let [lambda_inverse, inv_shape, scale, c, d] = fields;
        match kind {
            1 => GammaMade::One { lambda_inverse },
            2 => GammaMade::Small {
                inv_shape,
                scale,
                c,
                d,
            },
            3 => GammaMade::Large { scale, c, d },
            _ => unreachable!("Gamma has three kinds"),
        }
    }
}

impl ChiSquaredMade {
    fn told(kind: usize, fields: [f64; 5]) -> Self {
        match kind {
            0 => ChiSquaredMade::DoFExactlyOne,
            _ => ChiSquaredMade::DoFAnythingElse(GammaMade::told(kind, fields)),
        }
    }
}

impl BetaMade {
    pub(crate) fn told([kind, switched]: [usize; 2], fields: [f64; 7]) -> Self {
        let [a, b, alpha, beta, gamma, kappa1, kappa2] = fields;
        BetaMade {
            a,
            b,
            switched_params: switched == 1,
            algorithm: match kind {
                1 => BetaAlgorithm::BB { alpha, beta, gamma },
                2 => BetaAlgorithm::BC {
                    alpha,
                    beta,
                    kappa1,
                    kappa2,
                },
                _ => unreachable!("Beta has two algorithms"),
            },
        }
    }
}

impl FisherFMade {
    pub(crate) fn told([numer, denom]: [usize; 2], fields: [f64; 11]) -> Self {
        let [n0, n1, n2, n3, n4, d0, d1, d2, d3, d4, dof_ratio] = fields;
        FisherFMade {
            numer: ChiSquaredMade::told(numer, [n0, n1, n2, n3, n4]),
            denom: ChiSquaredMade::told(denom, [d0, d1, d2, d3, d4]),
            dof_ratio,
        }
    }
}

impl PertMade {
    pub(crate) fn told(kinds: [usize; 2], fields: [f64; 9]) -> Self {
        let [min, range, a, b, alpha, beta, gamma, kappa1, kappa2] = fields;
        PertMade {
            min,
            range,
            beta: BetaMade::told(kinds, [a, b, alpha, beta, gamma, kappa1, kappa2]),
        }
    }
}
