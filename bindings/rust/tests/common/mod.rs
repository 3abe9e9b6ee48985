//! The samplers of numbers behind one trait, so that what holds of each is said once.
#![allow(dead_code)] // each test file uses a part

use ewebasket::{Beta, ChiSquared, Draws, FisherF, Gamma, Pert, Positions, Refusal, StudentT};

pub const NAN_BITS: u64 = 0x7ff8_0000_0000_0000;

pub const START: Positions = at(0, 0, 0);

pub const fn at(uniforms: usize, normals: usize, exponentials: usize) -> Positions {
    Positions {
        uniforms,
        normals,
        exponentials,
    }
}

pub fn uniforms(uniforms: &[f64]) -> Draws<'_> {
    Draws {
        uniforms,
        ..Draws::default()
    }
}

pub fn normals(normals: &[f64]) -> Draws<'_> {
    Draws {
        normals,
        ..Draws::default()
    }
}

pub fn exponentials(exponentials: &[f64]) -> Draws<'_> {
    Draws {
        exponentials,
        ..Draws::default()
    }
}

pub fn bits(numbers: &[f64]) -> Vec<u64> {
    numbers.iter().map(|x| x.to_bits()).collect()
}

pub trait Sampler {
    fn sample(&self, draws: &Draws, at: Positions) -> Result<(f64, Positions), Refusal>;
    fn fill(&self, draws: &Draws, at: Positions, out: &mut [f64]) -> Result<Positions, Refusal>;
}

macro_rules! sampler {
    ($($name:ident),+) => {
        $(impl Sampler for $name {
            fn sample(&self, draws: &Draws, at: Positions) -> Result<(f64, Positions), Refusal> {
                self.sample(draws, at)
            }

            fn fill(&self, draws: &Draws, at: Positions, out: &mut [f64]) -> Result<Positions, Refusal> {
                self.fill(draws, at, out)
            }
        })+
    };
}

sampler!(Gamma, Beta, ChiSquared, FisherF, StudentT, Pert);

/// One of each, and of Gamma one of each kind.
pub fn samplers() -> Vec<(&'static str, Box<dyn Sampler>)> {
    vec![
        (
            "Gamma, exponential",
            Box::new(Gamma::new(1.0, 2.0).unwrap()),
        ),
        ("Gamma, small", Box::new(Gamma::new(0.5, 2.0).unwrap())),
        ("Gamma, large", Box::new(Gamma::new(2.0, 1.0).unwrap())),
        ("Beta", Box::new(Beta::new(2.0, 5.0).unwrap())),
        (
            "ChiSquared, square",
            Box::new(ChiSquared::new(1.0).unwrap()),
        ),
        ("ChiSquared", Box::new(ChiSquared::new(3.0).unwrap())),
        ("FisherF", Box::new(FisherF::new(3.0, 4.0).unwrap())),
        ("StudentT", Box::new(StudentT::new(4.0).unwrap())),
        (
            "Pert by mode",
            Box::new(Pert::new(0.0, 10.0).with_mode(3.0).unwrap()),
        ),
        (
            "Pert by mean",
            Box::new(Pert::new(0.0, 10.0).with_mean(5.0).unwrap()),
        ),
    ]
}
