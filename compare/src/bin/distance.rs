//! How far the kernels lie from plain f64, over stated ranges: the largest distance in units in the last place, where it was
//! met, and how often one of the two alone is zero. docs/DIFFERENCES.md has the figures.

use compare::distance::ulps;
use compare::inputs::{self, Random};
use compare::kernels;

const SAMPLES: usize = 2_000_000;

// What is tried of one range, and the worst of it so far.
struct Worst {
    name: String,
    tried: usize,
    zero_at_one: usize,
    distance: u64,
    at: Vec<u64>,
    kernel: f64,
    plain: f64,
}

impl Worst {
    fn new(name: &str) -> Self {
        Worst {
            name: name.to_string(),
            tried: 0,
            zero_at_one: 0,
            distance: 0,
            at: Vec::new(),
            kernel: 0.0,
            plain: 0.0,
        }
    }

    fn note(&mut self, arguments: &[f64], kernel: f64, plain: f64) {
        self.tried += 1;
        if (kernel == 0.0) != (plain == 0.0) {
            self.zero_at_one += 1;
        }
        let distance = ulps(kernel, plain);
        if self.at.is_empty() || distance > self.distance {
            self.distance = distance;
            self.at = arguments.iter().map(|x| x.to_bits()).collect();
            self.kernel = kernel;
            self.plain = plain;
        }
    }

    fn print(&self) {
        let at: Vec<String> = self.at.iter().map(|w| format!("{w:016x}")).collect();
        println!(
            "{:<50} {} inputs, {:>7} zero at one alone; largest distance {:>5} ulps at {}: {:016x} here, {:016x} plain",
            self.name,
            self.tried,
            self.zero_at_one,
            self.distance,
            at.join(" "),
            self.kernel.to_bits(),
            self.plain.to_bits()
        );
    }
}

type One = fn(f64) -> f64;

fn one(name: &str, kernel: One, plain: One, mut draw: impl FnMut() -> f64) {
    let mut worst = Worst::new(name);
    for _ in 0..SAMPLES {
        let x = draw();
        worst.note(&[x], kernel(x), plain(x));
    }
    worst.print();
}

fn pair(name: &str, mut draw: impl FnMut() -> (f64, f64)) {
    let mut worst = Worst::new(name);
    for _ in 0..SAMPLES {
        let (u, y) = draw();
        worst.note(&[u, y], kernels::powf(u, y), u.powf(y));
    }
    worst.print();
}

fn ln_ranges(random: &mut Random) {
    let ln = |name: &str, draw: &mut dyn FnMut() -> f64| one(name, kernels::ln, f64::ln, draw);
    let word = |x: f64| x.to_bits();
    ln("ln, uniforms in (0, 1)", &mut || random.unit());
    ln("ln, (0, 1), every exponent", &mut || {
        f64::from_bits(random.words(1 << 52, word(1.0) - 1))
    });
    ln("ln, [1, 1e308], every exponent", &mut || {
        f64::from_bits(random.words(word(1.0), word(1e308)))
    });
    ln("ln, [1/2, 2]", &mut || random.between(0.5, 2.0));
    ln("ln, within 2^-10 of 1", &mut || {
        1.0 + random.between(-1.0, 1.0) / 1024.0
    });
    ln("ln, within 2^-30 of 1", &mut || {
        f64::from_bits(random.words(word(1.0) - (1 << 23), word(1.0) + (1 << 22)))
    });
    ln("ln, subnormals", &mut || f64::from_bits(random.subnormal()));
}

fn exp_ranges(random: &mut Random) {
    let exp = |name: &str, draw: &mut dyn FnMut() -> f64| one(name, kernels::exp, f64::exp, draw);
    let word = |x: f64| x.to_bits();
    exp("exp, (-708, 710)", &mut || random.between(-708.0, 710.0));
    exp("exp, (-50, 50)", &mut || random.between(-50.0, 50.0));
    exp("exp, (-1, 1)", &mut || random.between(-1.0, 1.0));
    exp("exp, 2^-60 to 2^-10 in size", &mut || {
        let size = f64::from_bits(random.words(word(2f64.powi(-60)), word(2f64.powi(-10))));
        if random.below(2) == 0 {
            size
        } else {
            -size
        }
    });
    exp("exp, (-745.2, -708]", &mut || {
        -f64::from_bits(random.words(word(708.0), word(745.2) - 1))
    });
}

fn powf_ranges(random: &mut Random) {
    pair("powf, u in (0, 1), y in (1, 2)", || {
        (random.unit(), random.between(1.0, 2.0))
    });
    pair("powf, u in (0, 1), y in (1, 10)", || {
        (random.unit(), random.between(1.0, 10.0))
    });
    pair("powf, u in (0, 1), y in (1, 100)", || {
        (random.unit(), random.between(1.0, 100.0))
    });
    pair("powf, u in (0, 1), y = 1/shape, shape in (0, 1)", || {
        (random.unit(), 1.0 / random.unit())
    });
    // The product's rounding is what powf adds to exp, so its size decides the distance.
    let products = [
        (0.0, 1.0),
        (1.0, 10.0),
        (10.0, 100.0),
        (100.0, 708.0),
        (708.0, 745.2),
    ];
    for (low, high) in products {
        let name = format!("powf, y above 1, y·ln u in (-{high}, -{low})");
        pair(&name, || loop {
            let u = random.unit();
            let y = -random.between(low, high) / u.ln();
            let product = y * u.ln();
            if y > 1.0 && product < -low && product > -high {
                return (u, y);
            }
        });
    }
}

// The root by squares of whole numbers: x is n·2^(2w) with n of 105 or 106 binary digits, and r is the whole number
// nearest to the root of n.
fn root(x: f64) -> f64 {
    let word = x.to_bits();
    let (significand, exponent) = if word >> 52 == 0 {
        (word, -1074)
    } else {
        (word & ((1 << 52) - 1) | 1 << 52, (word >> 52) as i32 - 1075)
    };
    let mut places = significand.leading_zeros() as i32 + 41;
    places += (exponent - places) & 1;
    let n = u128::from(significand) << places;
    // The largest r with r·r at most n, one binary digit at a time.
    let mut r = 0u128;
    for digit in (0..54).rev() {
        let next = r | 1 << digit;
        if next * next <= n {
            r = next;
        }
    }
    if n > r * r + r {
        r += 1;
    }
    let scale = f64::from_bits(((1023 + (exponent - places) / 2) as u64) << 52);
    r as f64 * scale
}

fn sqrt_differences(random: &mut Random) -> usize {
    let mut words: Vec<u64> = (0..SAMPLES).map(|_| random.positive()).collect();
    words.extend((0..SAMPLES).map(|_| random.subnormal()));
    words.extend(inputs::near_powers(1));
    let finite = |w: &&u64| **w != 0 && f64::from_bits(**w).is_finite();
    let words: Vec<&u64> = words.iter().filter(finite).collect();
    let differ = words
        .iter()
        .filter(|w| kernels::sqrt(f64::from_bits(***w)) != root(f64::from_bits(***w)))
        .count();
    let tried = words.len();
    println!("sqrt: {tried} inputs, the platform's root differs from that by squares of whole numbers at {differ}");
    differ
}

fn main() {
    let mut random = Random::new(20);
    ln_ranges(&mut random);
    exp_ranges(&mut random);
    powf_ranges(&mut random);
    if sqrt_differences(&mut random) > 0 {
        std::process::exit(1);
    }
}
