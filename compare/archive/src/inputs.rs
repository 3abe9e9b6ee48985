//! Calls of every kind: samplers and draws as requests have them, and what only a caller of the library can lend: positions up to
//! the largest, outputs and reports of any words, long draws.

use crate::call::{Call, What};
use compare::inputs::Random;
use compare::kernels::exp;
use oracle::inputs::{
    alpha, exponential, near, normal, Draws, Family, Pert, Sampler, DEFAULT_SHAPE,
};
use oracle::Positions;

/// Document 01 refuses more elements, by 15.
pub const LONGEST_VECTOR: u64 = 4096;

/// As the library's functions are called.
pub fn name(family: Family) -> &'static str {
    match family {
        Family::Gamma => "gamma",
        Family::Beta => "beta",
        Family::ChiSquared => "chi_squared",
        Family::FisherF => "fisher_f",
        Family::StudentT => "student_t",
        Family::PertMode => "pert_mode",
        Family::PertMean => "pert_mean",
        Family::Dirichlet => "dirichlet",
    }
}

/// A sampler of random parameters; now and then an alpha is about as long as it may be.
pub fn sampler(family: Family, random: &mut Random) -> Sampler {
    if family == Family::Dirichlet && random.below(200) == 0 {
        let count = LONGEST_VECTOR - 5 + random.below(10);
        return Sampler::Dirichlet(alpha(count, random));
    }
    Sampler::random(family, random)
}

/// Mostly enough draws for so many samples; now and then a position is about as large as it can be.
pub fn draws(sampler: &Sampler, samples: u64, random: &mut Random) -> Draws {
    let mut draws = sampler.draws(samples, random);
    let far = usize::MAX - random.below(3) as usize;
    match random.below(72) {
        0 => draws.at.uniforms = far,
        1 => draws.at.normals = far,
        2 => draws.at.exponentials = far,
        _ => (),
    }
    draws
}

/// How samplers of a family are made, and draws for so many of one's samples.
pub struct Makers {
    /// What a kind of call is called besides.
    pub size: &'static str,
    pub sampler: fn(Family, &mut Random) -> Sampler,
    pub draws: fn(&Sampler, u64, &mut Random) -> Draws,
}

/// Any parameters, and draws mostly enough for them.
pub const ANY: Makers = Makers {
    size: "",
    sampler,
    draws,
};

impl Makers {
    /// What a call of a family's samples, or fills, is called.
    pub fn kind(&self, family: Family, word: &str) -> String {
        format!("{} {word}{}", name(family), self.size)
    }
}

/// Those that call exp for a sample's value, or for what it is made of.
pub const SMALL_FAMILIES: [Family; 2] = [Family::Gamma, Family::Beta];

/// Parameters and draws whose samples come down to the subnormals.
pub const SMALL: Makers = Makers {
    size: ", small",
    sampler: small_sampler,
    draws: small_draws,
};

fn small_sampler(family: Family, random: &mut Random) -> Sampler {
    match family {
        Family::Gamma => Sampler::Gamma(random.between(0.001, 0.02), random.between(0.5, 2.0)),
        _ => Sampler::Beta(random.between(0.001, 0.05), random.between(0.001, 0.05)),
    }
}

/// Mostly with a first uniform by which exp is asked about -746 to -708, which few are.
fn small_draws(sampler: &Sampler, samples: u64, random: &mut Random) -> Draws {
    let mut draws = draws(sampler, samples, random);
    if random.below(4) == 0 {
        return draws;
    }
    let x = random.between(-746.5, -707.5);
    let uniform = match *sampler {
        Sampler::Gamma(shape, _) => exp(x * shape),
        Sampler::Beta(a, b) => {
            let odds = exp(x * a.min(b));
            odds / (1.0 + odds)
        }
        _ => return draws,
    };
    if let Some(first) = draws.uniforms.get_mut(draws.at.uniforms) {
        *first = uniform;
    }
    // Where a Beta's w is so small, few second uniforms are accepted.
    if sampler.family() == Family::Beta {
        sampler.aim().put(&mut draws, random);
    }
    draws
}

/// Those that rest on Beta, besides Dirichlet.
pub const EDGE_FAMILIES: [Family; 3] = [Family::Beta, Family::PertMode, Family::PertMean];

/// Parameters where what #110 covers ends, or a rule of Beta changes, and draws whose samples come to the interval's ends.
pub const EDGES: Makers = Makers {
    size: ", edges",
    sampler: edge_sampler,
    draws: edge_draws,
};

fn edge_sampler(family: Family, random: &mut Random) -> Sampler {
    match family {
        Family::Beta => {
            let (alpha, beta) = edge_parameters(random);
            Sampler::Beta(alpha, beta)
        }
        Family::PertMode => Sampler::PertMode(edge_pert(random)),
        Family::PertMean => Sampler::PertMean(by_mean(edge_pert(random))),
        _ => {
            let count = 2 + random.below(4);
            Sampler::Dirichlet((0..count).map(|_| edge_element(random)).collect())
        }
    }
}

const TWO_TO_511: u64 = 0x5fe0_0000_0000_0000;
const TWO_TO_512: u64 = 0x5ff0_0000_0000_0000;
const TWO_TO_970: u64 = 0x7c90_0000_0000_0000;

/// Next to 2^-1022, to 1, to MAX/2 or to 2^970, by which MAX overflows; or from 2^511 to 2^512, where 2ab does.
fn edge_parameter(random: &mut Random) -> f64 {
    match random.below(5) {
        0 => near(f64::MIN_POSITIVE, random),
        1 => near(1.0, random),
        2 => f64::from_bits(random.words(TWO_TO_511, TWO_TO_512)),
        3 => near(f64::MAX / 2.0, random),
        _ => near(f64::from_bits(TWO_TO_970), random),
    }
}

/// Alpha and beta: alike, with a sum that is about to overflow, or any two.
fn edge_parameters(random: &mut Random) -> (f64, f64) {
    let x = edge_parameter(random);
    let y = match random.below(4) {
        0 => x,
        1 => near(f64::MAX - x, random).min(f64::MAX),
        _ => edge_parameter(random),
    };
    match random.below(2) {
        0 => (x, y),
        _ => (y, x),
    }
}

/// Of 0.3 and 0.9 the range is too large by its rounding; a shape next to EPSILON makes a parameter next to 1.
fn edge_pert(random: &mut Random) -> Pert {
    let (min, max) = match random.below(4) {
        0 => (0.3, 0.9),
        1 => (0.0, 1.0),
        2 => (-f64::MAX / 2.0, f64::MAX / 2.0),
        _ => {
            let min = random.between(-10.0, 10.0);
            (min, min + random.between(0.0, 20.0))
        }
    };
    let shape = match random.below(4) {
        0 => None,
        1 => Some(near(f64::EPSILON, random)),
        _ => Some(edge_parameter(random)),
    };
    let middle = match random.below(3) {
        0 => min,
        1 => max,
        _ => min + random.unit() * (max - min),
    };
    Pert {
        min,
        max,
        shape,
        middle,
    }
}

/// By the mean of its mode, since the mode of most means is outside the range.
fn by_mean(pert: Pert) -> Pert {
    let shape = pert.shape.unwrap_or(DEFAULT_SHAPE);
    let middle = (pert.min + pert.max + shape * pert.middle) / (shape + 2.0);
    Pert { middle, ..pert }
}

/// At most 0.1, for the Beta route, and normal.
fn edge_element(random: &mut Random) -> f64 {
    match random.below(3) {
        0 => f64::from_bits(f64::MIN_POSITIVE.to_bits() + random.below(3)),
        1 => f64::from_bits(0.1f64.to_bits() - random.below(3)),
        _ => random.between(0.0, 0.1),
    }
}

/// Usable uniforms, four trials for each sample or component: of those at an edge many are rejected.
fn edge_draws(sampler: &Sampler, samples: u64, random: &mut Random) -> Draws {
    let trials = 4 * samples.max(sampler.components());
    Draws {
        uniforms: (0..trials).flat_map(|_| edge_trial(random)).collect(),
        normals: Vec::new(),
        exponentials: Vec::new(),
        at: Positions::default(),
    }
}

/// The first mostly at an edge, and often the second: where w is extreme, few others are accepted.
fn edge_trial(random: &mut Random) -> [f64; 2] {
    [4, 2].map(|often| match random.below(often) {
        0 => random.unit(),
        _ => edge_uniform(random),
    })
}

/// Usable, and within two steps of 0, of 1/2 or of 1.
fn edge_uniform(random: &mut Random) -> f64 {
    match random.below(4) {
        0 => f64::from_bits(1 + random.below(2)),
        1 => f64::from_bits(1.0f64.to_bits() - 1 - random.below(2)),
        _ => near(0.5, random),
    }
}

/// A call with cells of any words, and a report that starts from the draws' positions.
pub fn call<'a>(
    sampler: Sampler,
    what: What,
    draws: &'a Draws,
    cells: u64,
    random: &mut Random,
) -> Call<'a> {
    let Positions {
        uniforms,
        normals,
        exponentials,
    } = draws.at;
    let mut report: Vec<usize> = (0..6 + random.below(3))
        .map(|_| random.word() as usize)
        .collect();
    report[3..6].copy_from_slice(&[uniforms, normals, exponentials]);
    Call {
        sampler,
        what,
        draws,
        out: (0..cells).map(|_| random.word()).collect(),
        report,
    }
}

/// Draws for the fills of 65,536 cells: usable ones, and as many as most of these need.
pub fn long_draws(cells: u64, random: &mut Random) -> Draws {
    Draws {
        uniforms: (0..12 * cells).map(|_| random.unit()).collect(),
        normals: (0..4 * cells).map(|_| normal(random)).collect(),
        exponentials: (0..3 * cells).map(|_| exponential(random)).collect(),
        at: Positions::default(),
    }
}

/// Parameters with which a long fill, or the longest vector, mostly comes to its end.
pub fn plain_sampler(family: Family, random: &mut Random) -> Sampler {
    let (x, y) = (size(random), size(random));
    let pert = Pert {
        min: -x,
        max: y,
        shape: None,
        middle: (y - x) / 2.0,
    };
    Sampler::of_numbers(family, x, y).unwrap_or_else(|| match family {
        Family::PertMode => Sampler::PertMode(pert),
        Family::PertMean => Sampler::PertMean(pert),
        _ => {
            let small = random.below(2) == 0;
            let element = |_| match small {
                true => random.between(0.01, 0.1),
                false => size(random),
            };
            Sampler::Dirichlet((0..LONGEST_VECTOR).map(element).collect())
        }
    })
}

fn size(random: &mut Random) -> f64 {
    match random.below(4) {
        0 => 1.0,
        1 => random.unit(),
        _ => random.between(0.5, 50.0),
    }
}
