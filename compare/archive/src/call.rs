//! A call, and what a caller can see of it.

use oracle::inputs::{Draws, Sampler};

/// A Dirichlet has one function, which takes a vector as a fill takes samples.
#[derive(Clone, Copy, Debug, PartialEq, Eq)]
pub enum What {
    Sample,
    Fill,
}

/// What is lent beside the draws: every cell by its own word.
#[derive(Clone, Debug)]
pub struct Call<'a> {
    pub sampler: Sampler,
    pub what: What,
    pub draws: &'a Draws,
    pub out: Vec<u64>,
    pub report: Vec<usize>,
}

/// What there is after a call: the number it returned, and all cells lent.
#[derive(Clone, Debug, PartialEq, Eq)]
pub struct Seen {
    pub number: usize,
    pub out: Vec<u64>,
    pub report: Vec<usize>,
}

impl Seen {
    /// The words that a call gave; nothing where it was refused.
    pub fn given(&self, what: What) -> Option<&[u64]> {
        match (self.number, what) {
            (0, What::Sample) => self.out.get(..1),
            (0, What::Fill) => Some(&self.out),
            _ => None,
        }
    }
}

/// The returned number that stands for no refusal: the report or the output is too short.
pub const TOO_SHORT: usize = 255;
