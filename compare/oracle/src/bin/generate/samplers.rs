//! Samplers in the words of a request, by their parameters or by raw fields, and where their first trial's draws can be aimed.

use compare::inputs::Random;
use oracle::inputs::{number, parameter, settled, Aim, Family, Sampler};
use oracle::rand_distr::{BetaFields, ChiSquared, ChiSquaredFields, Gamma, GammaFields};
use oracle::{
    beta_of, beta_parts, beta_words, gamma_of, gamma_parts, gamma_words, numbers, own, BETA_KINDS,
    GAMMA_KINDS, K,
};

/// A sampler of numbers, as it is asked.
pub struct Asked {
    pub name: &'static str,
    pub words: String,
    pub aim: Aim,
    /// Whose count of draws is enough for it.
    pub family: Family,
}

fn words(given: &[f64]) -> String {
    let given: Vec<K> = given.iter().copied().map(K).collect();
    numbers(&given, own)
}

/// By random parameters.
pub fn made(family: Family, random: &mut Random) -> Asked {
    let sampler = Sampler::random(family, random);
    Asked {
        name: family.word(),
        words: sampler.words(),
        aim: sampler.aim(),
        family,
    }
}

// ---- Raw fields.

// Fields of a constructor, as they are or with one of them another number; or none of a constructor's.
fn fields(made: Option<Vec<K>>, count: usize, random: &mut Random) -> Vec<K> {
    match made {
        Some(fields) if random.below(2) == 0 => {
            let mut fields: Vec<K> = fields.iter().map(|x| K(settled(x.0))).collect();
            if random.below(2) == 0 {
                let i = random.below(count as u64) as usize;
                fields[i] = K(number(random));
            }
            fields
        }
        _ => (0..count).map(|_| K(number(random))).collect(),
    }
}

fn raw_gamma(random: &mut Random) -> GammaFields<K> {
    let made = oracle::gamma(parameter(random), parameter(random));
    let (kind, count) = GAMMA_KINDS[[0, 1, 1, 2, 2][random.below(5) as usize]];
    let made = made.map(|gamma| gamma_parts(gamma.fields()));
    let same = made.ok().filter(|(made, _)| *made == kind);
    let kept = fields(same.map(|(_, kept)| kept), count, random);
    gamma_of(kind, &kept).expect("a kind and its count")
}

fn raw_beta(random: &mut Random) -> BetaFields<K> {
    let made = oracle::beta(parameter(random), parameter(random));
    let switched = random.below(2) == 0;
    let (kind, count) = BETA_KINDS[random.below(2) as usize];
    let made = made.map(|beta| beta_parts(beta.fields()));
    let same = made.ok().filter(|(made, ..)| *made == kind);
    let kept = fields(same.map(|(.., kept)| kept), count, random);
    beta_of(kind, switched, &kept).expect("a kind and its count")
}

fn raw_chi(random: &mut Random) -> ChiSquared<K> {
    ChiSquared::from_fields(match random.below(4) {
        0 => ChiSquaredFields::Square,
        _ => ChiSquaredFields::Gamma(Gamma::from_fields(raw_gamma(random))),
    })
}

fn chi_words(chi: ChiSquared<K>) -> String {
    match chi.fields() {
        ChiSquaredFields::Square => "square".to_string(),
        ChiSquaredFields::Gamma(gamma) => format!("gamma {}", gamma_words(gamma.fields(), own)),
    }
}

/// A sampler by raw fields, and whose count of draws is enough for it.
pub const RAW: [(&str, Family); 6] = [
    ("gamma-raw", Family::Gamma),
    ("beta-raw", Family::Beta),
    ("chi-raw", Family::ChiSquared),
    ("fisher-raw", Family::FisherF),
    ("student-raw", Family::StudentT),
    ("pert-raw", Family::PertMode),
];

/// One of [`RAW`], by random fields.
pub fn raw((name, family): (&'static str, Family), random: &mut Random) -> Asked {
    let (words, aim) = raw_words(family, random);
    Asked {
        name,
        words,
        aim,
        family,
    }
}

fn raw_words(family: Family, random: &mut Random) -> (String, Aim) {
    match family {
        Family::Gamma => {
            let fields = raw_gamma(random);
            (gamma_words(fields, own), Aim::gamma(0, fields))
        }
        Family::Beta => {
            let fields = raw_beta(random);
            (beta_words(fields, own), Aim::Beta(fields))
        }
        Family::ChiSquared => {
            let chi = raw_chi(random);
            (chi_words(chi), Aim::chi(0, chi))
        }
        Family::FisherF => {
            let (numer, denom) = (raw_chi(random), raw_chi(random));
            let ratio = words(&[number(random)]);
            let words = format!("{} {} {ratio}", chi_words(numer), chi_words(denom));
            (words, Aim::chi(0, numer))
        }
        Family::StudentT => {
            let chi = raw_chi(random);
            let words = format!("{} {}", chi_words(chi), words(&[number(random)]));
            (words, Aim::chi(1, chi))
        }
        _ => {
            let fields = raw_beta(random);
            let (min, range) = (number(random), number(random));
            let words = format!("{} {}", words(&[min, range]), beta_words(fields, own));
            (words, Aim::Beta(fields))
        }
    }
}

// ---- One sample of raw fields from the draws of one trial.

/// A Large of scale, c and d, from one uniform and one normal.
pub fn gamma_request(kept: [f64; 3], u: f64, x: f64) -> String {
    let fields = gamma_of("large", &kept.map(K)).expect("a kind and its count");
    let sampler = gamma_words(fields, own);
    format!(
        "gamma-raw {sampler} {} {} - 0 0 0",
        words(&[u]),
        words(&[x])
    )
}

/// A Beta from two uniforms.
pub fn beta_request(kind: &str, kept: &[K], [u1, u2]: [f64; 2], random: &mut Random) -> String {
    let switched = random.below(2) == 0;
    let fields = beta_of(kind, switched, kept).expect("a kind and its count");
    let sampler = beta_words(fields, own);
    format!(
        "beta-raw {sampler} {},{} - - 0 0 0",
        words(&[u1]),
        words(&[u2])
    )
}
