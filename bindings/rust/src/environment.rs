//! The floating-point environment that the proofs assume.

use std::hint::black_box;

/// What the floating-point environment of a thread is otherwise than IEEE 754's default, which every proof assumes.
///
/// ```
/// use ewebasket::{environment, Environment};
///
/// assert_eq!(environment(), Environment::default());
/// assert!(environment().is_assumed());
/// ```
#[derive(Clone, Copy, Debug, Default, PartialEq, Eq, Hash)]
pub struct Environment {
    /// A result is not rounded to nearest, ties to even.
    pub rounded_otherwise: bool,
    /// A subnormal result is made 0.
    pub results_flushed: bool,
    /// A subnormal operand is taken as 0.
    pub operands_flushed: bool,
}

impl Environment {
    /// Whether it is the one that the proofs assume.
    ///
    /// ```
    /// # use ewebasket::Environment;
    /// let upward = Environment { rounded_otherwise: true, ..Environment::default() };
    /// assert!(!upward.is_assumed());
    /// ```
    pub fn is_assumed(self) -> bool {
        self == Environment::default()
    }
}

/// The calling thread's floating-point environment now, by a few operations whose results tell. Rust assumes the same default of
/// every program; what a program links can have set another (`fesetround`, `-ffast-math`).
///
/// ```
/// assert!(ewebasket::environment().is_assumed());
/// ```
pub fn environment() -> Environment {
    // The operands and results go where the compiler does not see them, so that they are the machine's own.
    let machine = |x: f64| black_box(x);
    let step = f64::EPSILON; // of the numbers from 1 to 2
    let down = machine(machine(1.0) + machine(step / 2.0)); // a tie, to 1
    let up = machine(machine(1.0) + machine(step * 1.5)); // a tie, to two steps above it
    let halved = machine(machine(f64::MIN_POSITIVE) * machine(0.5));
    let doubled = machine(machine(f64::from_bits(1 << 51)) * machine(2.0)); // half of the smallest normal number
    Environment {
        rounded_otherwise: down != 1.0 || up != 1.0 + 2.0 * step,
        // By its bits: a comparison could take a subnormal for 0.
        results_flushed: halved.to_bits() == 0,
        operands_flushed: doubled != f64::MIN_POSITIVE,
    }
}
