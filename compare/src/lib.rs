//! Document 01's rules written plainly in Rust, and the inputs at which the proved code is compared with them.
//!
//! Nothing here is taken from the proved code: a rule misread there has to be misread here too before the two agree.

pub mod distance;
pub mod faults;
pub mod inputs;
pub mod kernels;
pub mod mutants;
pub mod root;
