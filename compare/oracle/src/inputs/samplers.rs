//! Samplers by their parameters.

use super::{argument, number, settled, small_parameter, Aim, Draws};
use crate::{
    beta, chi_squared, dirichlet, fisher_f, gamma, list, numbers, own, pert_with_mean,
    pert_with_mode, student_t, Refusal, K,
};
use compare::inputs::Random;
use rand_distr::multi::DirichletFields;

#[derive(Clone, Copy, Debug, PartialEq, Eq)]
pub enum Family {
    Gamma,
    Beta,
    ChiSquared,
    FisherF,
    StudentT,
    PertMode,
    PertMean,
    Dirichlet,
}

impl Family {
    /// Those whose samples are numbers.
    pub const OF_NUMBERS: [Family; 7] = [
        Family::Gamma,
        Family::Beta,
        Family::ChiSquared,
        Family::FisherF,
        Family::StudentT,
        Family::PertMode,
        Family::PertMean,
    ];

    /// Its word in a request, and in a sheet of it.
    pub fn word(self) -> &'static str {
        match self {
            Family::Gamma => "gamma",
            Family::Beta => "beta",
            Family::ChiSquared => "chi",
            Family::FisherF => "fisher",
            Family::StudentT => "student",
            Family::PertMode => "pert-mode",
            Family::PertMean => "pert-mean",
            Family::Dirichlet => "dirichlet",
        }
    }

    /// How many draws of each kind are mostly enough for so many samples, or for a vector of so many components.
    pub fn enough(self, count: u64) -> [u64; 3] {
        let [u, n, e] = match self {
            Family::Beta | Family::PertMode | Family::PertMean => [5, 0, 0],
            Family::FisherF => [5, 4, 2],
            Family::Dirichlet => [4, 2, 1],
            _ => [3, 3, 1],
        };
        let count = count.max(1);
        [count * u + 4, count * n + 3, count * e + 2]
    }
}

/// Document 01's shape of a PERT that is given none.
pub const DEFAULT_SHAPE: f64 = 4.0;

/// A PERT's parameters, the default shape where there is none; the last is the mode or the mean.
#[derive(Clone, Copy, Debug)]
pub struct Pert {
    pub min: f64,
    pub max: f64,
    pub shape: Option<f64>,
    pub middle: f64,
}

impl Pert {
    fn random(random: &mut Random) -> Self {
        let min = match random.below(3) {
            0 => number(random),
            _ => random.between(-10.0, 10.0),
        };
        let max = match random.below(8) {
            0 => number(random),
            _ => settled(min + argument(random)),
        };
        let middle = match random.below(6) {
            0 => number(random),
            1 => min,
            2 => max,
            _ => settled(min + random.unit() * (max - min)),
        };
        let shape = match random.below(4) {
            0 => None,
            1 => Some(number(random)),
            _ => Some(argument(random)),
        };
        Pert {
            min,
            max,
            shape,
            middle,
        }
    }

    // Mostly the mean of that mode: a mean taken anywhere has its mode outside the range.
    fn by_mean(self, random: &mut Random) -> Self {
        let shape = self.shape.unwrap_or(DEFAULT_SHAPE);
        let mean = (self.min + self.max + shape * self.middle) / (shape + 2.0);
        let middle = match random.below(4) {
            0 => self.middle,
            _ => settled(mean),
        };
        Pert { middle, ..self }
    }

    /// By its mode.
    pub fn with_mode(self) -> Result<rand_distr::Pert<K>, Refusal> {
        pert_with_mode(self.min, self.max, self.shape, self.middle)
    }

    /// By its mean.
    pub fn with_mean(self) -> Result<rand_distr::Pert<K>, Refusal> {
        pert_with_mean(self.min, self.max, self.shape, self.middle)
    }
}

/// So many elements of an alpha, mostly all for one of the two routes.
pub fn alpha(count: u64, random: &mut Random) -> Vec<f64> {
    let of = random.below(8);
    let mut alpha: Vec<f64> = (0..count)
        .map(|_| match of {
            0 => 1.0,
            1..=4 => small_parameter(random),
            _ => random.between(0.05, 3.0),
        })
        .collect();
    if random.below(4) == 0 && count > 0 {
        alpha[random.below(count) as usize] = argument(random);
    }
    alpha
}

#[derive(Clone, Debug)]
pub enum Sampler {
    Gamma(f64, f64),
    Beta(f64, f64),
    ChiSquared(f64),
    FisherF(f64, f64),
    StudentT(f64),
    PertMode(Pert),
    PertMean(Pert),
    Dirichlet(Vec<f64>),
}

impl Sampler {
    /// One of the families whose parameters are one number or two; the others have none.
    pub fn of_numbers(family: Family, x: f64, y: f64) -> Option<Self> {
        match family {
            Family::Gamma => Some(Sampler::Gamma(x, y)),
            Family::Beta => Some(Sampler::Beta(x, y)),
            Family::ChiSquared => Some(Sampler::ChiSquared(x)),
            Family::FisherF => Some(Sampler::FisherF(x, y)),
            Family::StudentT => Some(Sampler::StudentT(x)),
            Family::PertMode | Family::PertMean | Family::Dirichlet => None,
        }
    }

    pub fn random(family: Family, random: &mut Random) -> Self {
        let (x, y) = (argument(random), argument(random));
        let y = if random.below(8) == 0 { x } else { y };
        Sampler::of_numbers(family, x, y).unwrap_or_else(|| match family {
            Family::PertMode => Sampler::PertMode(Pert::random(random)),
            Family::PertMean => Sampler::PertMean(Pert::random(random).by_mean(random)),
            _ => {
                let count = match random.below(12) {
                    0 => random.below(2),
                    _ => 2 + random.below(4),
                };
                Sampler::Dirichlet(alpha(count, random))
            }
        })
    }

    pub fn family(&self) -> Family {
        match self {
            Sampler::Gamma(..) => Family::Gamma,
            Sampler::Beta(..) => Family::Beta,
            Sampler::ChiSquared(_) => Family::ChiSquared,
            Sampler::FisherF(..) => Family::FisherF,
            Sampler::StudentT(_) => Family::StudentT,
            Sampler::PertMode(_) => Family::PertMode,
            Sampler::PertMean(_) => Family::PertMean,
            Sampler::Dirichlet(_) => Family::Dirichlet,
        }
    }

    /// How many numbers a sample of it has.
    pub fn components(&self) -> u64 {
        match self {
            Sampler::Dirichlet(alpha) => alpha.len() as u64,
            _ => 1,
        }
    }

    /// Its parameters in the words of a request; a NaN by its own bits.
    pub fn words(&self) -> String {
        let words = |given: &[f64]| {
            let given: Vec<K> = given.iter().copied().map(K).collect();
            numbers(&given, own)
        };
        match self {
            Sampler::Gamma(x, y) | Sampler::Beta(x, y) | Sampler::FisherF(x, y) => words(&[*x, *y]),
            Sampler::ChiSquared(x) | Sampler::StudentT(x) => words(&[*x]),
            Sampler::PertMode(pert) | Sampler::PertMean(pert) => {
                let shape = pert.shape.map_or("-".to_string(), |shape| words(&[shape]));
                let (range, middle) = (words(&[pert.min, pert.max]), words(&[pert.middle]));
                format!("{range} {shape} {middle}")
            }
            Sampler::Dirichlet(alpha) => {
                let alpha: Vec<u64> = alpha.iter().map(|x| x.to_bits()).collect();
                list(&alpha)
            }
        }
    }

    /// Where its first trial's draws can be aimed: nowhere where its constructor refuses.
    pub fn aim(&self) -> Aim {
        self.aimed().unwrap_or(Aim::None)
    }

    fn aimed(&self) -> Result<Aim, Refusal> {
        Ok(match self {
            Sampler::Gamma(x, y) => Aim::gamma(0, gamma(*x, *y)?.fields()),
            Sampler::Beta(x, y) => Aim::Beta(beta(*x, *y)?.fields()),
            Sampler::ChiSquared(k) => Aim::chi(0, chi_squared(*k)?),
            Sampler::FisherF(m, n) => Aim::chi(0, fisher_f(*m, *n)?.fields().numer),
            Sampler::StudentT(nu) => Aim::chi(1, student_t(*nu)?.fields().chi),
            Sampler::PertMode(pert) => Aim::Beta(pert.with_mode()?.fields().beta.fields()),
            Sampler::PertMean(pert) => Aim::Beta(pert.with_mean()?.fields().beta.fields()),
            Sampler::Dirichlet(alpha) => match dirichlet(alpha)?.fields() {
                DirichletFields::Gammas(gammas) => Aim::gamma(0, gammas[0].fields()),
                DirichletFields::Betas(betas) => Aim::Beta(betas[0].fields()),
            },
        })
    }

    /// Draws that are mostly enough for so many samples, mostly aimed.
    pub fn draws(&self, samples: u64, random: &mut Random) -> Draws {
        let count = match self {
            Sampler::Dirichlet(_) => self.components(),
            _ => samples,
        };
        Draws::asked(self.family().enough(count), self.aim(), random)
    }
}
