//! Draws aimed: those of a sampler's first trial, put within two steps of a threshold of its tests.

use super::{near, Draws};
use crate::K;
use compare::inputs::Random;
use compare::kernels::{exp, ln};
use rand_distr::{BetaFields, ChiSquared, ChiSquaredFields, GammaFields};

impl Draws {
    fn put_uniform(&mut self, offset: usize, x: f64) {
        if let Some(cell) = self.uniforms.get_mut(self.at.uniforms + offset) {
            *cell = x;
        }
    }

    /// The first trial of a Large of these fields, which starts `offset` uniforms on, put near a threshold of its tests.
    pub fn aim_gamma(&mut self, c: f64, d: f64, offset: usize, random: &mut Random) {
        let Some(x) = self.normals.get_mut(self.at.normals) else {
            return;
        };
        if random.below(3) == 0 {
            *x = near(-1.0 / c, random);
        }
        let x = *x;
        let w = 1.0 + c * x;
        let (v, square) = (w * w * w, x * x);
        let threshold = match random.below(2) {
            0 => 1.0 - 0.0331 * square * square,
            _ => exp(0.5 * square + d * (1.0 - v + ln(v))),
        };
        self.put_uniform(offset, near(threshold, random));
    }

    /// The first trial of a Beta, put near a threshold of its tests.
    pub fn aim_beta(&mut self, fields: BetaFields<K>, random: &mut Random) {
        let Some(&u1) = self.uniforms.get(self.at.uniforms) else {
            return;
        };
        let (a, b, alpha, beta) = match fields {
            BetaFields::Bb {
                a, b, alpha, beta, ..
            }
            | BetaFields::Bc {
                a, b, alpha, beta, ..
            } => (a.0, b.0, alpha.0, beta.0),
        };
        let v = beta * ln(u1 / (1.0 - u1));
        let w = a * exp(v);
        let log = alpha * ln(alpha / (b + w));
        let z = match (fields, random.below(3)) {
            (BetaFields::Bb { gamma, .. }, 0) => exp(gamma.0 * v - ln(4.0) + log),
            (BetaFields::Bb { gamma, .. }, 1) => exp(a + gamma.0 * v - ln(4.0) - w),
            (BetaFields::Bb { gamma, .. }, _) => {
                (a + gamma.0 * v - ln(4.0) - w + 1.0 + ln(5.0)) / 5.0
            }
            (BetaFields::Bc { .. }, 0) => exp(log + alpha * v - ln(4.0)),
            (BetaFields::Bc { kappa1, .. }, 1) if u1 < 0.5 => {
                kappa1.0 / (0.25 + u1 * u1 - u1) * (u1 * u1)
            }
            (BetaFields::Bc { kappa2, .. }, 1) => kappa2.0,
            (BetaFields::Bc { .. }, _) => 0.25,
        };
        self.put_uniform(1, near(z / (u1 * u1), random));
    }
}

/// Where the draws of a sampler's first trial can be aimed.
#[derive(Clone, Copy, Debug)]
pub enum Aim {
    None,
    /// Normals and uniforms that come before the trial's, and the trial's c and d.
    Gamma(usize, usize, K, K),
    Beta(BetaFields<K>),
}

impl Aim {
    pub fn gamma(normals: usize, fields: GammaFields<K>) -> Self {
        match fields {
            GammaFields::One { .. } => Aim::None,
            GammaFields::Small { c, d, .. } => Aim::Gamma(normals, 1, c, d),
            GammaFields::Large { c, d, .. } => Aim::Gamma(normals, 0, c, d),
        }
    }

    pub fn chi(normals: usize, chi: ChiSquared<K>) -> Self {
        match chi.fields() {
            ChiSquaredFields::Square => Aim::None,
            ChiSquaredFields::Gamma(gamma) => Aim::gamma(normals, gamma.fields()),
        }
    }

    /// Puts the first trial's draws near a threshold of its tests.
    pub fn put(self, draws: &mut Draws, random: &mut Random) {
        match self {
            Aim::None => (),
            Aim::Gamma(normals, offset, c, d) => {
                draws.at.normals += normals;
                draws.aim_gamma(c.0, d.0, offset, random);
                draws.at.normals -= normals;
            }
            Aim::Beta(fields) => draws.aim_beta(fields, random),
        }
    }

    /// The same, two times of three.
    pub fn put_mostly(self, draws: &mut Draws, random: &mut Random) {
        if random.below(3) > 0 {
            self.put(draws, random);
        }
    }
}
