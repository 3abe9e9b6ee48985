//! Why a call gave nothing.

use crate::Positions;
use std::error::Error;
use std::fmt;

/// A draw's kind.
///
/// ```
/// use ewebasket::{Draws, Gamma, Kind, Positions};
///
/// let gamma = Gamma::new(1.0, 2.0)?;
/// let refusal = gamma.sample(&Draws::default(), Positions::default()).unwrap_err();
/// assert_eq!(refusal.kind, Some(Kind::Exponential));
/// assert_eq!(Kind::Exponential as usize, 3);
/// # Ok::<(), ewebasket::Refusal>(())
/// ```
#[derive(Clone, Copy, Debug, PartialEq, Eq, Hash)]
pub enum Kind {
    /// Kind 1 of document 01.
    Uniform = 1,
    /// Kind 2.
    Normal = 2,
    /// Kind 3.
    Exponential = 3,
}

/// A refusal by document 01's number. It prints its number and what that means.
///
/// | number | given exactly when |
/// |---|---|
/// | 1, 2 | Gamma's shape, then scale, is not above 0 |
/// | 3, 4 | Beta's alpha, then beta, is not above 0 |
/// | 5 | chi-squared or Student: k is not 1, and 0.5·k is not above 0 |
/// | 6, 7 | Fisher's m, then n, by the rule of 5 |
/// | 8, 9, 10 | PERT's range (also where its Beta is refused), mode, shape |
/// | 11, 15 | Dirichlet has fewer than 2, more than 4,096 elements |
/// | 12, 13, 14 | an element of alpha is not above 0, infinite, subnormal |
/// | 16 | Dirichlet's output is not as long as alpha |
/// | 17 | a position is above its slice's length |
/// | 18, 19 | the next draw is unusable, absent |
///
/// Numbers up to 17 leave an output as it was; after 18 or 19 every element of it is +0.
///
/// ```
/// use ewebasket::{Beta, Positions, Refusal};
///
/// let refusal = Beta::new(1.0, f64::NAN).unwrap_err();
/// let here = Refusal { number: 4, kind: None, index: None, positions: Positions::default() };
/// assert_eq!(refusal, here);
/// assert_eq!(refusal.to_string(), "refusal 4: Beta's beta is not above 0");
/// ```
#[derive(Clone, Copy, Debug, PartialEq, Eq, Hash)]
pub struct Refusal {
    /// Document 01's number, 1 to 19.
    pub number: usize,
    /// Of 18 and 19, the draw's kind.
    pub kind: Option<Kind>,
    /// Of 18 and 19, the draw's index in its slice; of 12 to 14, the element's in alpha.
    pub index: Option<usize>,
    /// The positions as lent to the call. A constructor is lent none, and its refusal has the default.
    pub positions: Positions,
}

impl Refusal {
    /// The refusal that the first three cells of a report tell.
    pub(crate) fn told([number, kind, index]: [usize; 3], positions: Positions) -> Self {
        Refusal {
            number,
            kind: match kind {
                1 => Some(Kind::Uniform),
                2 => Some(Kind::Normal),
                3 => Some(Kind::Exponential),
                _ => None,
            },
            index: matches!(number, 12..=14 | 18 | 19).then_some(index),
            positions,
        }
    }
}

impl fmt::Display for Refusal {
    fn fmt(&self, f: &mut fmt::Formatter) -> fmt::Result {
        let index = self.index.unwrap_or_default();
        let draw = match self.kind {
            Some(Kind::Uniform) => "uniform",
            Some(Kind::Normal) => "normal",
            Some(Kind::Exponential) => "exponential",
            None => "draw",
        };
        write!(f, "refusal {}: ", self.number)?;
        match self.number {
            1 => write!(f, "Gamma's shape is not above 0"),
            2 => write!(f, "Gamma's scale is not above 0"),
            3 => write!(f, "Beta's alpha is not above 0"),
            4 => write!(f, "Beta's beta is not above 0"),
            5 => write!(
                f,
                "the degrees of freedom are not 1, and half of them is not above 0"
            ),
            6 => write!(f, "Fisher's m is not 1, and half of it is not above 0"),
            7 => write!(f, "Fisher's n is not 1, and half of it is not above 0"),
            8 => write!(f, "PERT's max is not above its min, or its Beta is refused"),
            9 => write!(f, "PERT's mode does not lie from min to max"),
            10 => write!(f, "PERT's shape is not at least 0"),
            11 => write!(f, "Dirichlet's alpha has fewer than 2 elements"),
            12 => write!(f, "element {index} of Dirichlet's alpha is not above 0"),
            13 => write!(f, "element {index} of Dirichlet's alpha is infinite"),
            14 => write!(f, "element {index} of Dirichlet's alpha is subnormal"),
            15 => write!(f, "Dirichlet's alpha has more than 4,096 elements"),
            16 => write!(f, "the output is not as long as Dirichlet's alpha"),
            17 => write!(f, "a position is above its slice's length"),
            18 => write!(f, "the {draw} needed next, at index {index}, is not usable"),
            19 => write!(f, "the {draw} needed next, at index {index}, is absent"),
            _ => write!(f, "this is no number of document 01"),
        }
    }
}

impl Error for Refusal {}
