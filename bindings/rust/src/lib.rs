//! The samplers of rand_distr 0.6.0 (Gamma, Beta, chi-squared, Fisher F, Student t, PERT, Dirichlet) over draws that the caller
//! lends, for Rust to call. Nothing is computed here: every value comes from Ewebasket's static library, whose functions are
//! proved to follow document 01. The same parameters, draws and positions give the same bits on every machine.
//!
//! A sampler reads [`Draws`] from [`Positions`] on, and answers with its value and the positions past what it used; or it is
//! refused, with a numbered [`Refusal`], and then the positions are those it was lent. Every NaN handed out has the bits
//! `7ff8000000000000`.
//!
//! ```
//! use ewebasket::{Beta, Draws, Positions};
//!
//! let draws = Draws { uniforms: &[0.5, 0.5, 0.25], ..Draws::default() };
//! let beta = Beta::new(2.0, 5.0)?;
//! let (sample, after) = beta.sample(&draws, Positions::default())?;
//! assert_eq!(sample, 2.0 / 7.0);
//! assert_eq!(after.uniforms, 2);
//!
//! let refusal = beta.sample(&draws, after).unwrap_err();
//! assert_eq!(refusal.to_string(), "refusal 19: the uniform needed next, at index 3, is absent");
//! # Ok::<(), ewebasket::Refusal>(())
//! ```
//!
//! A caller in C has to keep lengths true and slices apart. Here the borrow checker does: a slice carries its own length, and an
//! output can't overlap draws. One thing it leaves to the caller: the thread's floating-point environment is IEEE 754's default,
//! which rounds to nearest, ties to even, and flushes no subnormal number to 0. Rust assumes so too, but what a program links can
//! have set it otherwise, and then the same inputs give other bits and a usable draw can be refused: [`environment`] tells. What no
//! proof covers is the module `sys` of this crate, a page of declarations and calls.
//!
//! Nothing is kept between calls, and the thread's floating-point environment is all the state that a call depends on beside what
//! it is lent: calls of several threads are independent, and every sampler here is `Send` and `Sync`.

#![deny(unsafe_code)]
#![warn(missing_docs)]

mod beta;
mod chi_squared;
mod dirichlet;
mod draws;
mod environment;
mod fisher_f;
mod gamma;
mod kernels;
mod made;
mod pert;
mod refusal;
mod student_t;
mod sys;

pub use beta::Beta;
pub use chi_squared::ChiSquared;
pub use dirichlet::Dirichlet;
pub use draws::{Draws, Positions};
pub use environment::{environment, Environment};
pub use fisher_f::FisherF;
pub use gamma::Gamma;
pub use kernels::{exp, ln, powf, sqrt};
pub use made::{BetaAlgorithm, BetaMade, ChiSquaredMade, FisherFMade, GammaMade, PertMade};
pub use pert::{Pert, PertBuilder};
pub use refusal::{Kind, Refusal};
pub use student_t::StudentT;
