//! Lent draws, and the generator that replays them.

use crate::K;
use rand::Rng;
use rand_distr::{Distribution, Exp1, Open01, StandardNormal};
use std::panic::resume_unwind;

#[derive(Clone, Copy, Debug, Default)]
pub struct Lent<'a> {
    pub uniforms: &'a [f64],
    pub normals: &'a [f64],
    pub exponentials: &'a [f64],
}

#[derive(Clone, Copy, Debug, Default, PartialEq, Eq)]
pub struct Positions {
    pub uniforms: usize,
    pub normals: usize,
    pub exponentials: usize,
}

impl Positions {
    pub(crate) fn above(self, lent: Lent) -> bool {
        self.uniforms > lent.uniforms.len()
            || self.normals > lent.normals.len()
            || self.exponentials > lent.exponentials.len()
    }
}

#[derive(Clone, Copy, Debug, PartialEq, Eq)]
pub enum Kind {
    Uniform = 1,
    Normal = 2,
    Exponential = 3,
}

impl Kind {
    fn usable(self, draw: f64) -> bool {
        match self {
            Kind::Uniform => 0.0 < draw && draw < 1.0,
            Kind::Normal => draw.is_finite(),
            Kind::Exponential => draw.is_finite() && draw > 0.0,
        }
    }
}

/// A refusal by document 01's number, with its kind and index, each 0 where the document names none.
#[derive(Clone, Copy, Debug, PartialEq, Eq)]
pub struct Refusal {
    pub number: u32,
    pub kind: u32,
    pub index: usize,
}

impl Refusal {
    /// A refusal that names no kind and no index.
    pub fn plain(number: u32) -> Self {
        Self::of_element(number, 0)
    }

    /// A refusal of one element of alpha.
    pub fn of_element(number: u32, index: usize) -> Self {
        let kind = 0;
        Refusal {
            number,
            kind,
            index,
        }
    }

    /// A refusal of one draw, by its index in the lent slice.
    pub fn of_draw(number: u32, kind: Kind, index: usize) -> Self {
        let kind = kind as u32;
        Refusal {
            number,
            kind,
            index,
        }
    }
}

/// The generator: each draw asked for is the next one lent of its kind. The modules have no way to end without a draw, so an
/// absent or unusable one unwinds out of them, with the refusal as what is thrown; [`crate::sample`] and the others catch it.
#[derive(Debug)]
pub struct Replay<'a> {
    lent: Lent<'a>,
    at: Positions,
}

impl<'a> Replay<'a> {
    pub fn new(lent: Lent<'a>, at: Positions) -> Self {
        Replay { lent, at }
    }

    /// The positions past what was drawn so far.
    pub fn at(&self) -> Positions {
        self.at
    }
}

#[cold]
fn stop(refusal: Refusal) -> ! {
    // Unlike `panic!` it prints nothing.
    resume_unwind(Box::new(refusal))
}

#[inline]
fn next(kind: Kind, draws: &[f64], at: &mut usize) -> f64 {
    match draws.get(*at) {
        None => stop(Refusal::of_draw(19, kind, *at)),
        Some(&draw) if !kind.usable(draw) => stop(Refusal::of_draw(18, kind, *at)),
        Some(&draw) => {
            *at += 1;
            draw
        }
    }
}

impl Rng for Replay<'_> {
    #[inline]
    fn uniform(&mut self) -> f64 {
        next(Kind::Uniform, self.lent.uniforms, &mut self.at.uniforms)
    }

    #[inline]
    fn normal(&mut self) -> f64 {
        next(Kind::Normal, self.lent.normals, &mut self.at.normals)
    }

    #[inline]
    fn exponential(&mut self) -> f64 {
        let at = &mut self.at.exponentials;
        next(Kind::Exponential, self.lent.exponentials, at)
    }
}

impl Distribution<K> for Open01 {
    #[inline]
    fn sample<R: Rng + ?Sized>(&self, rng: &mut R) -> K {
        K(rng.uniform())
    }
}

impl Distribution<K> for StandardNormal {
    #[inline]
    fn sample<R: Rng + ?Sized>(&self, rng: &mut R) -> K {
        K(rng.normal())
    }
}

impl Distribution<K> for Exp1 {
    #[inline]
    fn sample<R: Rng + ?Sized>(&self, rng: &mut R) -> K {
        K(rng.exponential())
    }
}
