//! The calls at which the kernels are compared. Arguments are words, not floats, so that a NaN keeps its sign and payload.

use crate::kernels;

const SIGN: u64 = 1 << 63;
const ROOT: u64 = 0x3ff6_a09e_667f_3bcd;
const SMALLEST_NORMAL: u64 = 1 << 52;
const LARGEST: u64 = 0x7fef_ffff_ffff_ffff;
const INFINITY: u64 = 0x7ff0_0000_0000_0000;

/// Where exp's answers get small: -708, the last x at which one is normal, the last at which one is above 0, and -746.
const SMALL_ANSWERS: [u64; 4] = [
    0xc086_2000_0000_0000,
    0xc086_232b_dd7a_bcd2,
    0xc087_4910_d52d_3051,
    0xc087_5000_0000_0000,
];

/// The recorded list comes out the same wherever it is made, so its random part has a fixed seed.
const RECORDED_SEED: u64 = 0x0e3e_ba5c_e700_0001;

/// splitmix64: small, and the same on every machine.
pub struct Random(u64);

impl Random {
    pub fn new(seed: u64) -> Self {
        Random(seed)
    }

    pub fn word(&mut self) -> u64 {
        self.0 = self.0.wrapping_add(0x9e37_79b9_7f4a_7c15);
        let mut z = self.0;
        z = (z ^ (z >> 30)).wrapping_mul(0xbf58_476d_1ce4_e5b9);
        z = (z ^ (z >> 27)).wrapping_mul(0x94d0_49bb_1331_11eb);
        z ^ (z >> 31)
    }

    pub fn below(&mut self, n: u64) -> u64 {
        self.word() % n
    }

    /// Strictly between 0 and 1, as a usable uniform is.
    pub fn unit(&mut self) -> f64 {
        (2 * (self.word() >> 12) + 1) as f64 / (1u64 << 53) as f64
    }

    pub fn between(&mut self, low: f64, high: f64) -> f64 {
        low + self.unit() * (high - low)
    }

    /// Any word from low to high, so that every exponent between them comes up as often.
    pub fn words(&mut self, low: u64, high: u64) -> u64 {
        low + self.below(high - low + 1)
    }

    /// Above 0 and finite.
    pub fn positive(&mut self) -> u64 {
        self.words(1, LARGEST)
    }

    /// Subnormals of every length.
    pub fn subnormal(&mut self) -> u64 {
        (self.word() | 1 << 63) >> (12 + self.below(52))
    }
}

#[derive(Clone, Copy)]
pub enum Kernel {
    Ln,
    Exp,
    Powf,
    Sqrt,
}

/// One call by the words of its arguments; `second` is 0 where there is none.
#[derive(Clone, Copy)]
pub struct Call {
    pub kernel: Kernel,
    pub first: u64,
    pub second: u64,
}

impl Call {
    fn one(kernel: Kernel, first: u64) -> Self {
        Call {
            kernel,
            first,
            second: 0,
        }
    }

    fn powf(u: u64, y: u64) -> Self {
        Call {
            kernel: Kernel::Powf,
            first: u,
            second: y,
        }
    }

    pub fn answer(self) -> u64 {
        let x = f64::from_bits(self.first);
        let answer = match self.kernel {
            Kernel::Ln => kernels::ln(x),
            Kernel::Exp => kernels::exp(x),
            Kernel::Powf => kernels::powf(x, f64::from_bits(self.second)),
            Kernel::Sqrt => kernels::sqrt(x),
        };
        answer.to_bits()
    }

    /// The line of the recorded list, always 53 bytes with its line feed.
    pub fn line(self) -> String {
        let letter = match self.kernel {
            Kernel::Ln => 'l',
            Kernel::Exp => 'e',
            Kernel::Powf => 'p',
            Kernel::Sqrt => 's',
        };
        let (first, second, answer) = (self.first, self.second, self.answer());
        format!("{letter} {first:016x} {second:016x} {answer:016x}\n")
    }
}

// The words within `steps` of w that have its sign: steps of one unit in the last place.
fn around(w: u64, steps: u64) -> Vec<u64> {
    let (sign, size) = (w & SIGN, w & !SIGN);
    (size.saturating_sub(steps)..=size + steps)
        .map(|word| sign | word)
        .collect()
}

fn both_signs(words: Vec<u64>) -> Vec<u64> {
    words.iter().flat_map(|w| [w & !SIGN, w | SIGN]).collect()
}

fn nans() -> Vec<u64> {
    both_signs(vec![
        INFINITY + 1,
        0x7ff4_0000_0000_0077,
        0x7ff8_0000_0000_0000,
        0x7ff8_0000_0000_0123,
        0x7fff_ffff_ffff_ffff,
    ])
}

/// Where a rule changes, or a number's form does.
pub fn edges() -> Vec<u64> {
    let mut words = Vec::new();
    for size in [
        0,
        1,
        SMALLEST_NORMAL,
        1.0f64.to_bits(),
        2.0f64.to_bits(),
        LARGEST,
    ] {
        words.extend(both_signs(around(size, 2)));
    }
    // 710 and -746 are exp's limits, and at -708 was one; between 709.78 and 710 exp overflows, from -708.4 down its result is
    // subnormal, and from -745.13 down nearer to 0 than to any other number.
    for x in [
        710.0,
        709.782_712_893_384,
        708.0,
        708.396_418_532_264_1,
        745.133_219_101_941_2,
        746.0,
    ] {
        words.extend(both_signs(around(f64::to_bits(x), 2)));
    }
    words.extend(both_signs(vec![INFINITY]));
    words.extend(nans());
    words
}

// Subnormals have few exponents, so that a share of all exponents would leave them out.
fn subnormal_stride(stride: usize) -> usize {
    stride / 16 + 1
}

/// ln halves a significand above ROOT: words on both sides of it, at every `stride`-th exponent, and at subnormals.
pub fn near_root(stride: usize) -> Vec<u64> {
    let fraction = ROOT & ((1 << 52) - 1);
    let exponents = (1..=2046u64).step_by(stride);
    let normal = exponents.map(|e| e << 52 | fraction);
    let shifts = (1..50).step_by(subnormal_stride(stride));
    let subnormal = shifts.map(|s| (fraction | 1 << 52) >> s);
    normal.chain(subnormal).flat_map(|w| around(w, 3)).collect()
}

/// exp's k steps where x·INV is a half: words on both sides of (k + 1/2)·ln 2, at every `stride`-th k.
pub fn near_halves(stride: usize) -> Vec<u64> {
    (-1077..=1025)
        .step_by(stride)
        .map(|k| (f64::from(k) + 0.5) * std::f64::consts::LN_2)
        .flat_map(|x| around(x.to_bits(), 3))
        .collect()
}

/// Words on both sides of 2^e, at every `stride`-th e, and at subnormals. An odd stride meets even and odd exponents.
pub fn near_powers(stride: usize) -> Vec<u64> {
    let places = (0..52u64).step_by(subnormal_stride(stride));
    let subnormal = places.map(|e| 1 << e);
    let normal = (1..=2046u64).step_by(stride).map(|e| e << 52);
    subnormal.chain(normal).flat_map(|w| around(w, 2)).collect()
}

// A square of a whole number has an exact root, and its neighbours' roots lie next to that.
fn near_square(random: &mut Random) -> Vec<u64> {
    let root = random.below(1 << 26) + 1;
    around(((root * root) as f64).to_bits(), 1)
}

/// powf where ln u or the product is no ordinary number; C's pow answers 1 at some of these, and document 01 NaN.
pub fn corners() -> Vec<Call> {
    let numbers = [
        0.0,
        f64::from_bits(1),
        0.5,
        f64::from_bits(0x3fef_ffff_ffff_ffff),
        1.0,
        f64::from_bits(0x3ff0_0000_0000_0001),
        2.0,
        3.5,
        1e300,
        f64::INFINITY,
    ];
    let mut words = both_signs(numbers.map(f64::to_bits).to_vec());
    words.push(kernels::NAN);
    words.push(SIGN | 0x7ff4_0000_0000_0077);
    let pairs = words.iter().flat_map(|u| words.iter().map(move |y| (u, y)));
    pairs.map(|(u, y)| Call::powf(*u, *y)).collect()
}

// u in (0, 1) and y above 1, as the samplers call it: y is 1/shape.
fn sampler_pair(random: &mut Random) -> Call {
    let shape = match random.below(3) {
        0 => random.unit(),
        1 => random.between(0.01, 1.0),
        _ => f64::from_bits(random.words(0x3f80_0000_0000_0000, 0x3fef_ffff_ffff_ffff)),
    };
    Call::powf(random.unit().to_bits(), (1.0 / shape).to_bits())
}

// u next to 1, where the product stays small for a large y.
fn pair_near_one(random: &mut Random) -> Call {
    let size = 0x3ff0_0000_0000_0000 - random.below(1 << 20);
    let y = random.words(0x3ff0_0000_0000_0000, 0x43f0_0000_0000_0000);
    Call::powf(size, y)
}

// One random call: the parts of it are drawn so that each path of each kernel is taken often.
fn random_call(random: &mut Random) -> Call {
    match random.below(12) {
        0 => Call::one(Kernel::Ln, random.word()),
        1 => Call::one(Kernel::Ln, random.positive()),
        2 => Call::one(Kernel::Ln, random.subnormal()),
        3 => Call::one(Kernel::Ln, random.unit().to_bits()),
        4 => Call::one(Kernel::Exp, random.word()),
        5 => Call::one(Kernel::Exp, random.between(-746.5, 710.5).to_bits()),
        6 => Call::one(Kernel::Exp, random.between(-1.0, 1.0).to_bits()),
        7 => Call::powf(random.word(), random.word()),
        8 => sampler_pair(random),
        9 => pair_near_one(random),
        10 => Call::one(Kernel::Sqrt, random.positive()),
        _ => Call::one(Kernel::Sqrt, random.subnormal()),
    }
}

// Within so many steps of a word.
fn beside(word: u64, steps: u64, random: &mut Random) -> u64 {
    word + random.below(2 * steps + 1) - steps
}

fn small_answer(random: &mut Random) -> u64 {
    SMALL_ANSWERS[random.below(4) as usize]
}

// powf whose product y·ln u lies about where exp's answers get small.
fn pair_of_small_answer(random: &mut Random) -> Call {
    let u = random.unit();
    let y = f64::from_bits(small_answer(random)) / kernels::ln(u);
    Call::powf(u.to_bits(), beside(y.to_bits(), 8, random))
}

// One call where a rule changes, by random: the recorded list has a share of these.
fn edge_call(random: &mut Random) -> Call {
    let kernels = [Kernel::Ln, Kernel::Exp, Kernel::Sqrt];
    let kernel = kernels[random.below(3) as usize];
    match random.below(7) {
        0 => {
            // Halved or not, a significand of ROOT has mostly the same answer; near e = 0 it has not.
            let exponent = 1023 - 32 + random.below(64);
            let word = exponent << 52 | ROOT & ((1 << 52) - 1);
            Call::one(Kernel::Ln, beside(word, 3, random))
        }
        1 => {
            let half = random.below(2103) as f64 - 1077.0 + 0.5;
            let word = (half * std::f64::consts::LN_2).to_bits();
            Call::one(Kernel::Exp, beside(word, 3, random))
        }
        2 => Call::one(kernel, beside(random.words(1, 2046) << 52, 3, random)),
        3 => {
            let edges = edges();
            Call::one(kernel, edges[random.below(edges.len() as u64) as usize])
        }
        4 => {
            let corners = corners();
            corners[random.below(corners.len() as u64) as usize]
        }
        5 => Call::one(Kernel::Exp, beside(small_answer(random), 8, random)),
        _ => pair_of_small_answer(random),
    }
}

/// `count` random calls, every eighth of them where a rule changes.
pub fn random_calls(count: usize, seed: u64) -> Vec<Call> {
    let mut random = Random::new(seed);
    let call = |turn| match turn % 8 {
        0 => edge_call(&mut random),
        _ => random_call(&mut random),
    };
    (0..count).map(call).collect()
}

/// The recorded list: every edge, the places where a rule changes at a share of the exponents, and random calls.
pub fn recorded() -> Vec<Call> {
    let mut random = Random::new(RECORDED_SEED);
    let mut calls = Vec::new();
    let mut all = |kernel, words: Vec<u64>| {
        calls.extend(words.into_iter().map(|word| Call::one(kernel, word)));
    };
    for kernel in [Kernel::Ln, Kernel::Exp, Kernel::Sqrt] {
        all(kernel, edges());
    }
    all(Kernel::Ln, near_root(59));
    all(Kernel::Ln, near_powers(83));
    all(Kernel::Exp, near_halves(43));
    all(Kernel::Exp, both_signs(near_powers(83)));
    all(Kernel::Sqrt, near_powers(37));
    for _ in 0..60 {
        all(Kernel::Sqrt, near_square(&mut random));
    }
    calls.extend(corners());
    calls.extend((0..2400).map(|_| random_call(&mut random)));
    calls
}

#[cfg(test)]
mod tests {
    use super::*;

    #[test]
    fn random_calls_meet_root_itself() {
        let root = |call: &Call| call.first == ROOT && matches!(call.kernel, Kernel::Ln);
        assert!(random_calls(200_000, 1).iter().any(root));
    }

    #[test]
    fn random_calls_meet_the_small_answers_of_exp() {
        let calls = random_calls(200_000, 1);
        for x in SMALL_ANSWERS {
            for word in [x - 8, x, x + 8] {
                let met = |call: &Call| call.first == word && matches!(call.kernel, Kernel::Exp);
                assert!(calls.iter().any(met), "{word:016x}");
            }
        }
        let powf = |call: &&Call| matches!(call.kernel, Kernel::Powf);
        let answers: Vec<u64> = calls
            .iter()
            .filter(powf)
            .map(|call| call.answer())
            .collect();
        for answer in [1, SMALLEST_NORMAL + 0x7c] {
            assert!(answers.contains(&answer), "{answer:016x}");
        }
    }

    #[test]
    fn the_same_seed_makes_the_same_calls() {
        let lines = |seed| -> Vec<String> {
            let calls = random_calls(100, seed);
            calls.into_iter().map(Call::line).collect()
        };
        assert_eq!(lines(3), lines(3));
        assert_ne!(lines(3), lines(4));
        assert!(lines(3).iter().all(|line| line.len() == 53));
    }
}
