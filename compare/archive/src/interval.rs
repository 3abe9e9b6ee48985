//! From where to where a sample lies: of Beta as document 02's #110 has it, and of PERT and Dirichlet as follows from that.

use oracle::inputs::{Family, Sampler};
use oracle::rand_distr::multi::DirichletFields;
use oracle::rand_distr::{Beta, BetaFields, Pert};
use oracle::K;
use std::ops::AddAssign;

/// Both ends belong to it.
#[derive(Clone, Copy, Debug)]
pub struct Interval {
    least: f64,
    greatest: f64,
}

const UNIT: Interval = Interval {
    least: 0.0,
    greatest: 1.0,
};

impl Interval {
    /// Where every number of a sampler lies; none where it rests on no Beta, or on parameters that are not covered.
    pub fn of(sampler: &Sampler) -> Option<Self> {
        match sampler {
            Sampler::Beta(alpha, beta) => {
                let beta = oracle::beta(*alpha, *beta).ok()?;
                covered(&beta).then_some(UNIT)
            }
            Sampler::PertMode(pert) => Interval::of_pert(pert.with_mode().ok()?),
            Sampler::PertMean(pert) => Interval::of_pert(pert.with_mean().ok()?),
            Sampler::Dirichlet(alpha) => match oracle::dirichlet(alpha).ok()?.fields() {
                DirichletFields::Betas(betas) => betas.iter().all(covered).then_some(UNIT),
                DirichletFields::Gammas(_) => None,
            },
            _ => None,
        }
    }

    // The greatest is not max: range + min, rounded, may be above it.
    fn of_pert(pert: Pert<K>) -> Option<Self> {
        let pert = pert.fields();
        let interval = Interval {
            least: pert.min.0,
            greatest: (pert.range + pert.min).0,
        };
        (covered(&pert.beta) && pert.range.0.is_finite()).then_some(interval)
    }

    // By the total order, in which -0 is below 0 and a NaN lies between no numbers.
    fn has(self, x: f64) -> bool {
        self.least.total_cmp(&x).is_le() && x.total_cmp(&self.greatest).is_le()
    }

    /// The first of these words whose number is outside.
    pub fn first_outside(self, words: &[u64]) -> Option<usize> {
        words
            .iter()
            .position(|word| !self.has(f64::from_bits(*word)))
    }

    /// Holds the numbers of these words to it.
    pub fn held(self, words: &[u64]) -> Held {
        let mut held = Held::default();
        for x in words.iter().map(|word| f64::from_bits(*word)) {
            held += Held {
                numbers: 1,
                least: (x == self.least).into(),
                greatest: (x == self.greatest).into(),
                outside: (!self.has(x)).into(),
            };
        }
        held
    }
}

// What #110 asks of alpha and beta, which are the fields a and b in one order or the other.
fn covered(beta: &Beta<K>) -> bool {
    let (BetaFields::Bb { a, b, .. } | BetaFields::Bc { a, b, .. }) = beta.fields();
    a.0.is_normal() && b.0.is_normal() && (a + b).0.is_finite()
}

/// How many numbers were held to their interval, and how many of them are its ends or outside.
#[derive(Clone, Copy, Debug, Default)]
pub struct Held {
    pub numbers: u64,
    pub least: u64,
    pub greatest: u64,
    pub outside: u64,
}

impl AddAssign for Held {
    fn add_assign(&mut self, other: Held) {
        self.numbers += other.numbers;
        self.least += other.least;
        self.greatest += other.greatest;
        self.outside += other.outside;
    }
}

/// Numbers that lie in an interval: how they and its ends are called, and the families that give them.
pub struct Bounded {
    numbers: &'static str,
    least: &'static str,
    greatest: &'static str,
    pub families: &'static [Family],
}

pub const BOUNDED: [Bounded; 3] = [
    Bounded {
        numbers: "Beta samples",
        least: "0",
        greatest: "1",
        families: &[Family::Beta],
    },
    Bounded {
        numbers: "PERT samples",
        least: "min",
        greatest: "range + min",
        families: &[Family::PertMode, Family::PertMean],
    },
    Bounded {
        numbers: "Dirichlet components",
        least: "0",
        greatest: "1",
        families: &[Family::Dirichlet],
    },
];

impl Bounded {
    pub fn print(&self, held: Held) {
        let Bounded {
            numbers,
            least,
            greatest,
            ..
        } = self;
        println!(
            "from {least} to {greatest}: {} {numbers}, {} of them {least}, {} of them {greatest}, {} outside",
            held.numbers, held.least, held.greatest, held.outside
        );
    }
}
