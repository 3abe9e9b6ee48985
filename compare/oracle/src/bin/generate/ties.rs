//! Requests whose one trial stands within a few steps of a tie of one test, by raw fields at which that test alone decides:
//! the tests before it don't accept and those after it reject, or the other way round. Draws aimed at a constructor's
//! samplers can't show how a tie falls where the next test would accept the trial too.

use crate::samplers::{beta_request, gamma_request};
use compare::inputs::Random;
use compare::kernels::{exp, ln};
use oracle::inputs::near;
use oracle::K;

// A test far below any ln z of a uniform's: alpha·ln(alpha/(b + w)) at these.
const REJECTING: (f64, f64) = (10.0, 1e9);
// And one far above.
const ACCEPTING: (f64, f64) = (1000.0, 1.0);

/// A test by its name, and a request at a tie of it.
type Test = (&'static str, fn(&mut Random) -> String);

/// In the order of their turns.
const TESTS: [Test; 9] = [
    ("gamma's first", gamma_first),
    ("gamma's second", gamma_second),
    ("BB step 2", bb_second),
    ("BB step 3", bb_third),
    ("BB step 4", bb_fourth),
    ("BC step 2", bc_second),
    ("BC step 3", bc_third),
    ("BC step 4", bc_fourth),
    ("BC step 5", bc_fifth),
];

fn test(turn: u64) -> Test {
    TESTS[turn as usize % TESTS.len()]
}

pub fn kind(turn: u64) -> String {
    format!("tie, {}", test(turn).0)
}

pub fn request(turn: u64, random: &mut Random) -> String {
    test(turn).1(random)
}

fn gamma_first(random: &mut Random) -> String {
    let (x, c) = (random.between(0.5, 2.2), random.between(0.05, 0.3));
    let square = x * x;
    let u = near(1.0 - 0.0331 * square * square, random);
    gamma_request([1.0, c, 1e6], u, x)
}

// At these x the first test's right side is below 0.
fn gamma_second(random: &mut Random) -> String {
    let (x, c) = (random.between(2.4, 6.0), random.between(0.05, 0.5));
    let u = random.unit();
    let w = 1.0 + c * x;
    let v = w * w * w;
    let d = (ln(u) - 0.5 * (x * x)) / (1.0 - v + ln(v));
    gamma_request([1.0, c, near(d, random)], u, x)
}

struct Trial {
    u1: f64,
    u2: f64,
    v: f64,
}

impl Trial {
    // A trial of beta 1.
    fn new(u1: f64, u2: f64) -> Self {
        let v = ln(u1 / (1.0 - u1));
        Trial { u1, u2, v }
    }

    fn z(&self) -> f64 {
        self.u1 * self.u1 * self.u2
    }

    fn bb(&self, a: f64, (alpha, b): (f64, f64), gamma: f64, random: &mut Random) -> String {
        let kept = [a, b, alpha, 1.0, gamma].map(K);
        beta_request("bb", &kept, [self.u1, self.u2], random)
    }

    fn bc(&self, (alpha, b): (f64, f64), kappas: [f64; 2], random: &mut Random) -> String {
        let [kappa1, kappa2] = kappas;
        let kept = [1.0, b, alpha, 1.0, kappa1, kappa2].map(K);
        beta_request("bc", &kept, [self.u1, self.u2], random)
    }

    // The gamma at which s = a + r - w is this.
    fn gamma(&self, a: f64, s: f64) -> f64 {
        (s - a + a * exp(self.v) + ln(4.0)) / self.v
    }
}

// 5·z - 1 - ln 5 touches ln z at z = 1/5 and lies above it everywhere else, so that only there can step 3 reject what stands
// at a tie of step 2.
fn bb_second(random: &mut Random) -> String {
    let u1 = random.between(0.6, 0.95);
    let trial = Trial::new(u1, near(0.2 / (u1 * u1), random));
    let a = match random.below(2) {
        0 => 0.0,
        _ => random.between(0.1, 3.0),
    };
    let gamma = trial.gamma(a, ln(0.2));
    let gamma = near(near(gamma, random), random);
    trial.bb(a, REJECTING, gamma, random)
}

fn bb_third(random: &mut Random) -> String {
    let trial = Trial::new(random.between(0.8, 0.97), random.between(0.8, 1.0));
    let a = random.between(0.1, 3.0);
    let gamma = near(trial.gamma(a, ln(trial.z())), random);
    trial.bb(a, REJECTING, gamma, random)
}

// w is far above a, so that s is far below r.
fn bb_fourth(random: &mut Random) -> String {
    let trial = Trial::new(random.between(0.75, 0.95), random.between(0.1, 1.0));
    let (a, b, alpha) = (40.0, random.between(0.1, 2.0), random.between(0.5, 2.0));
    let log = alpha * ln(alpha / (b + a * exp(trial.v)));
    let gamma = (ln(trial.z()) - log + ln(4.0)) / trial.v;
    trial.bb(a, (alpha, b), near(gamma, random), random)
}

fn bc_second(random: &mut Random) -> String {
    let trial = Trial::new(random.between(0.05, 0.5), random.unit());
    let y = trial.u1 * trial.u2;
    let kappa1 = near(0.25 * trial.u2 + trial.u1 * y - y, random);
    trial.bc(ACCEPTING, [kappa1, 0.0], random)
}

// Above 1/4 step 4 rejects.
fn bc_third(random: &mut Random) -> String {
    let u1 = random.between(0.55, 1.0);
    let trial = Trial::new(u1, near(0.25 / (u1 * u1), random));
    trial.bc(ACCEPTING, [0.0, 0.2], random)
}

fn bc_fourth(random: &mut Random) -> String {
    let trial = Trial::new(random.between(0.8, 1.0), random.between(0.5, 1.0));
    let kappa2 = near(trial.z(), random);
    trial.bc(ACCEPTING, [0.0, kappa2], random)
}

fn bc_fifth(random: &mut Random) -> String {
    let trial = Trial::new(random.between(0.8, 0.99), random.between(0.5, 1.0));
    let alpha = random.between(1.0, 5.0);
    let log = (ln(trial.z()) + ln(4.0)) / alpha - trial.v;
    let b = near(alpha / exp(log) - exp(trial.v), random);
    trial.bc((alpha, b), [0.0, 2.0], random)
}
