//! The oracle of the comparison: the seven sampler modules of rand_distr 0.6.0, unchanged, run at [`K`] with lent draws.
//!
//! A constructor here calls the Rust's and numbers its refusals as document 01 does; [`sample`], [`fill`] and [`vector`] say
//! what a call comes to: the value's bits, the new positions, the refusal, every cell of the output.
//!
//! ```
//! use oracle::{gamma, sample, Lent, Positions};
//!
//! let lent = Lent { exponentials: &[1.0], ..Lent::default() };
//! let outcome = sample(gamma(1.0, 2.0), lent, Positions::default());
//! assert_eq!(outcome.answer, Ok(2.0f64.to_bits()));
//! assert_eq!(outcome.at.exponentials, 1);
//! ```

mod draws;
pub mod inputs;
mod lists;
mod number;
mod outcomes;
mod samplers;
pub mod sheet;
mod words;

pub use draws::{Kind, Lent, Positions, Refusal, Replay};
pub use lists::list;
pub use number::{bits, own, K};
pub use outcomes::{fill, replayed, sample, vector, Outcome};
pub use rand_distr;
pub use samplers::{
    beta, chi_squared, dirichlet, fisher_f, gamma, pert_with_mean, pert_with_mode, student_t,
};
pub use words::{
    beta_of, beta_parts, beta_words, gamma_of, gamma_parts, gamma_words, numbers, BETA_KINDS,
    GAMMA_KINDS,
};
