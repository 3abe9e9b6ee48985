//! `distances COUNT SEED`: how far samples lie from plain f64. The same unchanged modules, at f64 with the platform's functions
//! and at document 01's kernels, sample from the same draws, COUNT times a range of parameters. Prints a table: the largest
//! distance in units of the last place of samples that used the same draws, how often they used different ones, which is an
//! acceptance decided otherwise, and how often one of the two alone is zero, or NaN; then a request for each largest distance.
//! docs/DIFFERENCES.md has the figures.

use compare::distance::ulps;
use compare::inputs::Random;
use num_traits::Float;
use oracle::inputs::{self, Draws, Sampler};
use oracle::rand_distr::multi::{Dirichlet, MultiDistribution};
use oracle::rand_distr::{
    Beta, ChiSquared, Distribution, Exp1, FisherF, Gamma, Open01, Pert, StandardNormal, StudentT,
};
use oracle::{replayed, Lent, Positions, Refusal, K};

/// A number type at which the modules run.
trait Number: Float + Default {
    fn value(self) -> f64;
}

impl Number for f64 {
    fn value(self) -> f64 {
        self
    }
}

impl Number for K {
    fn value(self) -> f64 {
        self.0
    }
}

type Drawn = Result<(Vec<f64>, Positions), Refusal>;

// What a sampler made of these parameters draws; every parameter here is one that it takes.
fn drawn<F: Number>(sampler: &Sampler, lent: Lent) -> Drawn
where
    StandardNormal: Distribution<F>,
    Exp1: Distribution<F>,
    Open01: Distribution<F>,
{
    let f = |x: f64| F::from(x).unwrap();
    match sampler {
        Sampler::Gamma(x, y) => one(Gamma::new(f(*x), f(*y)).unwrap(), lent),
        Sampler::Beta(x, y) => one(Beta::new(f(*x), f(*y)).unwrap(), lent),
        Sampler::ChiSquared(x) => one(ChiSquared::new(f(*x)).unwrap(), lent),
        Sampler::FisherF(x, y) => one(FisherF::new(f(*x), f(*y)).unwrap(), lent),
        Sampler::StudentT(x) => one(StudentT::new(f(*x)).unwrap(), lent),
        Sampler::PertMode(pert) | Sampler::PertMean(pert) => {
            let shape = pert.shape.unwrap_or(inputs::DEFAULT_SHAPE);
            let builder = Pert::new(f(pert.min), f(pert.max)).with_shape(f(shape));
            let made = match sampler {
                Sampler::PertMode(_) => builder.with_mode(f(pert.middle)),
                _ => builder.with_mean(f(pert.middle)),
            };
            one(made.unwrap(), lent)
        }
        Sampler::Dirichlet(alpha) => {
            let alpha: Vec<F> = alpha.iter().map(|x| f(*x)).collect();
            let made = Dirichlet::new(&alpha).unwrap();
            replayed(lent, Positions::default(), |rng| {
                let mut output = vec![F::default(); alpha.len()];
                made.sample_to_slice(rng, &mut output);
                output.into_iter().map(F::value).collect()
            })
        }
    }
}

fn one<F: Number>(sampler: impl Distribution<F>, lent: Lent) -> Drawn {
    replayed(lent, Positions::default(), |rng| {
        vec![sampler.sample(rng).value()]
    })
}

// The sampler that draws first, of one that has several.
fn first(sampler: &Sampler) -> Sampler {
    match sampler {
        Sampler::FisherF(m, _) => Sampler::ChiSquared(*m),
        Sampler::Dirichlet(alpha) if alpha.iter().all(|x| *x <= 0.1) => {
            let tail = alpha[1..alpha.len() - 1].iter().rev();
            let tail = tail.fold(alpha[alpha.len() - 1], |sum, x| sum + x);
            Sampler::Beta(alpha[0], tail)
        }
        Sampler::Dirichlet(alpha) => Sampler::Gamma(alpha[0], 1.0),
        _ => sampler.clone(),
    }
}

// The request by which `ask` is asked the same.
fn request(sampler: &Sampler, draws: &Draws, used: Positions) -> String {
    let mut draws = draws.clone();
    draws.uniforms.truncate(used.uniforms);
    draws.normals.truncate(used.normals);
    draws.exponentials.truncate(used.exponentials);
    let output = match sampler {
        Sampler::Dirichlet(alpha) => format!(" {} 0000000000000000", alpha.len()),
        _ => String::new(),
    };
    let name = sampler.family().word();
    format!("{name} {} {}{output}", sampler.words(), draws.words())
}

/// What was tried of one range.
#[derive(Default)]
struct Tally {
    // Those at which not both ran out of draws.
    compared: usize,
    // Zero, and NaN, at one of them alone.
    zeros: usize,
    nans: usize,
    decided_otherwise: usize,
    largest: u64,
    at: Option<String>,
}

// Whether the first of several samplers stops at the same draws: those after it may by chance make up for it.
fn alike(sampler: &Sampler, lent: Lent) -> bool {
    let first = first(sampler);
    let stops = |drawn: Drawn| drawn.map(|(_, at)| at);
    stops(drawn::<K>(&first, lent)) == stops(drawn::<f64>(&first, lent))
}

impl Tally {
    fn note(&mut self, sampler: &Sampler, draws: &Draws) {
        let here = drawn::<K>(sampler, draws.lent());
        let plain = drawn::<f64>(sampler, draws.lent());
        match (here, plain) {
            (Err(_), Err(_)) => (),
            (Ok((here, used)), Ok((plain, at))) if used == at && alike(sampler, draws.lent()) => {
                self.compared += 1;
                for (here, plain) in here.into_iter().zip(plain) {
                    self.compare(here, plain, || request(sampler, draws, used));
                }
            }
            _ => {
                self.compared += 1;
                self.decided_otherwise += 1;
            }
        }
    }

    fn compare(&mut self, here: f64, plain: f64, request: impl Fn() -> String) {
        if here.is_nan() != plain.is_nan() {
            self.nans += 1;
            return;
        }
        if (here == 0.0) != (plain == 0.0) {
            self.zeros += 1;
        }
        let distance = ulps(here, plain);
        if self.at.is_none() || distance > self.largest {
            self.largest = distance;
            let bits = plain.to_bits();
            self.at = Some(format!("{}: plain {bits:016x}", request()));
        }
    }
}

fn normal(random: &mut Random) -> f64 {
    let (length, angle) = (random.unit(), random.unit() * std::f64::consts::TAU);
    (-2.0 * length.ln()).sqrt() * angle.cos()
}

fn draws(random: &mut Random) -> Draws {
    Draws {
        uniforms: (0..40).map(|_| random.unit()).collect(),
        normals: (0..20).map(|_| normal(random)).collect(),
        exponentials: (0..4).map(|_| inputs::exponential(random)).collect(),
        at: Positions::default(),
    }
}

type Range = (&'static str, fn(&mut Random) -> Sampler);

fn two(random: &mut Random, low: f64, high: f64) -> (f64, f64) {
    (random.between(low, high), random.between(low, high))
}

fn three(random: &mut Random, low: f64, high: f64) -> Sampler {
    Sampler::Dirichlet((0..3).map(|_| random.between(low, high)).collect())
}

fn fisher(random: &mut Random, low: f64, high: f64) -> Sampler {
    let (m, n) = two(random, low, high);
    Sampler::FisherF(m, n)
}

fn beta(random: &mut Random, low: f64, high: f64) -> Sampler {
    let (a, b) = two(random, low, high);
    Sampler::Beta(a, b)
}

fn gamma(random: &mut Random, low: f64, high: f64) -> Sampler {
    Sampler::Gamma(random.between(low, high), random.between(0.5, 2.0))
}

fn pert(random: &mut Random, low: f64, high: f64) -> Sampler {
    let (shape, middle) = (random.between(low, high), random.unit());
    Sampler::PertMode(inputs::Pert {
        min: 0.0,
        max: 1.0,
        shape: Some(shape),
        middle,
    })
}

const RANGES: [Range; 27] = [
    ("gamma, shape in (0.001, 0.01)", |r| gamma(r, 0.001, 0.01)),
    ("gamma, shape in (0.01, 0.1)", |r| gamma(r, 0.01, 0.1)),
    ("gamma, shape in (0.1, 1)", |r| gamma(r, 0.1, 1.0)),
    ("gamma, shape 1", |r| gamma(r, 1.0, 1.0)),
    ("gamma, shape in (1, 10)", |r| gamma(r, 1.0, 10.0)),
    ("gamma, shape in (10, 1000)", |r| gamma(r, 10.0, 1e3)),
    ("gamma, shape in (1e3, 1e9)", |r| gamma(r, 1e3, 1e9)),
    ("beta, both in (1, 10)", |r| beta(r, 1.0, 10.0)),
    ("beta, both in (10, 1000)", |r| beta(r, 10.0, 1e3)),
    ("beta, both in (1e3, 1e9)", |r| beta(r, 1e3, 1e9)),
    ("beta, both in (0.1, 1)", |r| beta(r, 0.1, 1.0)),
    ("beta, both in (0.01, 0.1)", |r| beta(r, 0.01, 0.1)),
    ("beta, one in (0, 1), one in (1, 10)", |r| {
        Sampler::Beta(r.unit(), r.between(1.0, 10.0))
    }),
    ("chi, k in (0.1, 1)", |r| {
        Sampler::ChiSquared(r.between(0.1, 1.0))
    }),
    ("chi, k = 1", |_| Sampler::ChiSquared(1.0)),
    ("chi, k in (1, 10)", |r| {
        Sampler::ChiSquared(r.between(1.0, 10.0))
    }),
    ("chi, k in (10, 1000)", |r| {
        Sampler::ChiSquared(r.between(10.0, 1e3))
    }),
    ("fisher, both in (0.1, 2)", |r| fisher(r, 0.1, 2.0)),
    ("fisher, both in (2, 10)", |r| fisher(r, 2.0, 10.0)),
    ("fisher, both in (10, 1000)", |r| fisher(r, 10.0, 1e3)),
    ("student, nu in (0.1, 2)", |r| {
        Sampler::StudentT(r.between(0.1, 2.0))
    }),
    ("student, nu in (2, 1000)", |r| {
        Sampler::StudentT(r.between(2.0, 1e3))
    }),
    ("pert, shape 4", |r| pert(r, 4.0, 4.0)),
    ("pert, shape in (0, 100)", |r| pert(r, 0.0, 100.0)),
    ("dirichlet of 3, all in (0.001, 0.1)", |r| {
        three(r, 0.001, 0.1)
    }),
    ("dirichlet of 3, all in (0.1, 1)", |r| three(r, 0.1, 1.0)),
    ("dirichlet of 3, all in (1, 10)", |r| three(r, 1.0, 10.0)),
];

// Each range twice: draws as a generator's, and with those of the first trial put near a threshold of its tests.
fn tried(make: fn(&mut Random) -> Sampler, count: usize, random: &mut Random) -> [Tally; 2] {
    let mut tallies = [Tally::default(), Tally::default()];
    for _ in 0..count {
        let sampler = make(random);
        let mut draws = draws(random);
        tallies[0].note(&sampler, &draws);
        sampler.aim().put(&mut draws, random);
        let usable = |u: &f64| *u > 0.0 && *u < 1.0;
        if draws.uniforms.iter().all(usable) {
            tallies[1].note(&sampler, &draws);
        }
    }
    tallies
}

fn main() -> Result<(), Box<dyn std::error::Error>> {
    let words: Vec<String> = std::env::args().skip(1).collect();
    let [count, seed] = words.as_slice() else {
        return Err("usage: distances COUNT SEED".into());
    };
    let (count, mut random) = (count.parse()?, Random::new(seed.parse()?));
    let mut met = Vec::new();
    println!("| sampler and range | compared | largest | decided otherwise | zero at one | NaN at one | aimed | largest | decided otherwise |");
    println!("|---|---|---|---|---|---|---|---|---|");
    for (name, make) in RANGES {
        let [natural, aimed] = tried(make, count, &mut random);
        println!(
            "| {name} | {} | {} | {} | {} | {} | {} | {} | {} |",
            natural.compared,
            natural.largest,
            natural.decided_otherwise,
            natural.zeros,
            natural.nans,
            aimed.compared,
            aimed.largest,
            aimed.decided_otherwise
        );
        met.extend(natural.at.map(|at| format!("{name}: {at}")));
    }
    println!("\nthe largest distances, as requests:\n{}", met.join("\n"));
    Ok(())
}
