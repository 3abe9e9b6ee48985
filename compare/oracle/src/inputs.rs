//! Parameters, fields and draws of every size, and draws aimed within two steps of each test's threshold.
//!
//! The same seed makes the same on every machine: a logarithm is the kernels', and what was computed is [`settled`].

mod aim;
mod draws;
mod samplers;

pub use aim::Aim;
pub use draws::{bend, exponential, normal, Draws};
pub use samplers::{alpha, Family, Pert, Sampler, DEFAULT_SHAPE};

use compare::inputs::Random;
use compare::kernels::NAN;
use std::hint::black_box;

const SPECIAL: [u64; 20] = [
    0,
    1 << 63,
    1,
    1 << 52,
    (1 << 52) - 1,
    0x3fb9_9999_9999_9999,
    0x3fb9_9999_9999_999a,
    0x3fb9_9999_9999_999b,
    0x3fe0_0000_0000_0000,
    0x3fef_ffff_ffff_ffff,
    0x3ff0_0000_0000_0000,
    0x3ff0_0000_0000_0001,
    0x4000_0000_0000_0000,
    0x69e0_0000_0000_0000,
    0x7fe0_0000_0000_0000,
    0x7fef_ffff_ffff_ffff,
    0x7ff0_0000_0000_0000,
    0xfff0_0000_0000_0000,
    0x7ff4_0000_0000_0077,
    0xbff0_0000_0000_0000,
];

/// The bits of every NaN that was computed. No machine's arithmetic makes them from numbers, so that a test sees a NaN that
/// was not settled, and a sampler that hands on a NaN's own bits differs.
pub const COMPUTED_NAN: u64 = 0x7ff8_0000_0000_0123;

/// What was computed, by the same bits on every machine: a NaN of arithmetic has the machine's own. A NaN that is chosen keeps
/// its own bits and sign.
pub fn settled(x: f64) -> f64 {
    // The compiler holds one NaN for as good as another, so it must not see where x comes from.
    let x = black_box(x);
    if x.is_nan() {
        f64::from_bits(COMPUTED_NAN)
    } else {
        x
    }
}

fn one_of(words: &[u64], random: &mut Random) -> f64 {
    f64::from_bits(words[random.below(words.len() as u64) as usize])
}

fn special(random: &mut Random) -> f64 {
    one_of(&SPECIAL, random)
}

/// Within two steps of x, which is no chosen NaN.
pub fn near(x: f64, random: &mut Random) -> f64 {
    let steps = random.below(5) as i64 - 2;
    f64::from_bits(settled(x).to_bits().wrapping_add_signed(steps))
}

/// A parameter: mostly above 0, some at the edges.
pub fn parameter(random: &mut Random) -> f64 {
    match random.below(16) {
        0 | 1 => special(random),
        2 => f64::from_bits(random.positive()),
        3 => f64::from_bits(random.subnormal()),
        4 => near(1.0, random),
        5 | 6 => random.below(9) as f64,
        7 | 8 => random.between(0.0, 0.2),
        9..=11 => random.unit(),
        12 | 13 => random.between(1.0, 10.0),
        _ => random.between(0.5, 200.0),
    }
}

/// A parameter, at further edges too and of any bits.
fn argument(random: &mut Random) -> f64 {
    match random.below(20) {
        0 => f64::from_bits(random.word()),
        1 => f64::from_bits(NAN | random.below(2) << 63),
        2 => near(0.1, random),
        3 => near(1.0 / 3.0, random),
        4 => near(4.0 / 3.0, random),
        5 => f64::INFINITY,
        _ => parameter(random),
    }
}

/// Mostly at most 0.1, for a Dirichlet's Beta route.
pub fn small_parameter(random: &mut Random) -> f64 {
    match random.below(40) {
        0 => special(random),
        1 => near(0.1, random),
        _ => random.between(0.0, 0.1),
    }
}

/// Any sign, any size: for raw fields.
pub fn number(random: &mut Random) -> f64 {
    match random.below(8) {
        0 => special(random),
        1 => f64::from_bits(random.word()),
        2 => -random.unit(),
        3 => random.between(-100.0, 100.0),
        _ => random.between(0.0, 3.0),
    }
}

/// A draw that is usable as none of the three kinds.
pub fn unusable(random: &mut Random) -> f64 {
    let words = [
        0x7ff0_0000_0000_0000,
        0xfff0_0000_0000_0000,
        0x7ff4_0000_0000_0077,
        NAN,
        NAN | 1 << 63,
    ];
    one_of(&words, random)
}

// Unusable, or at an edge of what is usable: no kind of draw has all of these usable.
fn doubtful(random: &mut Random) -> f64 {
    let edges = [0, 1 << 63, 0x3ff0_0000_0000_0000, 0xbff0_0000_0000_0000];
    match random.below(2) {
        0 => one_of(&edges, random),
        _ => unusable(random),
    }
}
