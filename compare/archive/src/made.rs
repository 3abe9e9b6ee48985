//! What a constructor made: the cells that the library writes and what the crate `ewebasket` tells, beside the fields of
//! rand_distr's own samplers.

use crate::call::TOO_SHORT;
use crate::linked::{parameters, Guarded};
use crate::safe::builder;
use compare::inputs::Random;
use compare::kernels::NAN;
use ewebasket::{BetaAlgorithm, BetaMade, ChiSquaredMade, GammaMade, PertMade};
use oracle::inputs::{Family, Pert, Sampler};
use oracle::rand_distr::{self, BetaFields, ChiSquaredFields, GammaFields};
use oracle::{bits, Refusal, K};

/// Those whose constructors show what they made.
pub const FAMILIES: [Family; 5] = [
    Family::Gamma,
    Family::Beta,
    Family::FisherF,
    Family::PertMode,
    Family::PertMean,
];

/// The cells lent, or what stands in them after the call that returned the number.
#[derive(Clone, Debug, PartialEq, Eq)]
pub struct Cells {
    pub number: usize,
    pub kinds: Vec<usize>,
    pub fields: Vec<u64>,
}

/// Kinds and fields.
type Laid = (Vec<usize>, Vec<u64>);

/// How many a family has.
fn counts(sampler: &Sampler) -> (usize, usize) {
    match sampler {
        Sampler::Gamma(..) => (1, 5),
        Sampler::Beta(..) => (2, 7),
        Sampler::FisherF(..) => (2, 11),
        Sampler::PertMode(_) | Sampler::PertMean(_) => (2, 9),
        _ => unreachable!("it shows nothing"),
    }
}

/// Cells of any words, as many as are needed and a few more.
pub fn lent(sampler: &Sampler, random: &mut Random) -> Cells {
    let (kinds, fields) = counts(sampler);
    let mut words = |count: usize| -> Vec<u64> {
        let count = count as u64 + random.below(3);
        (0..count).map(|_| random.word()).collect()
    };
    Cells {
        number: 0,
        kinds: words(kinds).into_iter().map(|word| word as usize).collect(),
        fields: words(fields),
    }
}

/// Now and then fewer than are needed.
pub fn cut(lent: &mut Cells, random: &mut Random) {
    match random.below(16) {
        0 => lent.kinds.truncate(random.below(2) as usize),
        1 => lent.fields.truncate(random.below(11) as usize),
        _ => (),
    }
}

/// Parameters at which fields overflow, vanish or are NaN, in every combination; NaN of any sign and payload among them.
pub fn edges(family: Family) -> Vec<Sampler> {
    let nans = [
        NAN,
        NAN | 1 << 63,
        0x7ff4_0000_0000_0077,
        0xfff0_0000_0000_0001,
    ];
    let numbers = [
        -1e308,
        -1.0,
        -0.0,
        f64::from_bits(1),
        f64::MIN_POSITIVE,
        0.1,
        0.5,
        1.0,
        1.0 + f64::EPSILON,
        2.0,
        10.0,
        1e200,
        1e308,
        f64::INFINITY,
        f64::NEG_INFINITY,
    ];
    let all: Vec<f64> = nans
        .map(f64::from_bits)
        .into_iter()
        .chain(numbers)
        .collect();
    let pairs = || all.iter().flat_map(|x| all.iter().map(|y| (*x, *y)));
    let perts = || {
        pairs().flat_map(|(min, max)| {
            pairs().map(move |(shape, middle)| Pert {
                min,
                max,
                shape: Some(shape),
                middle,
            })
        })
    };
    match family {
        Family::Gamma => pairs().map(|(x, y)| Sampler::Gamma(x, y)).collect(),
        Family::Beta => pairs().map(|(x, y)| Sampler::Beta(x, y)).collect(),
        Family::FisherF => pairs().map(|(x, y)| Sampler::FisherF(x, y)).collect(),
        Family::PertMode => perts().map(Sampler::PertMode).collect(),
        Family::PertMean => perts().map(Sampler::PertMean).collect(),
        _ => unreachable!("it shows nothing"),
    }
}

/// What the Rust's own modules say that the cells hold.
pub fn expected(sampler: &Sampler, lent: &Cells) -> Cells {
    let (kinds, fields) = counts(sampler);
    if lent.kinds.len() < kinds || lent.fields.len() < fields {
        let number = TOO_SHORT;
        return Cells {
            number,
            ..lent.clone()
        };
    }
    match laid(sampler) {
        Err(refusal) => {
            let number = refusal.number as usize;
            Cells {
                number,
                ..lent.clone()
            }
        }
        Ok((its_kinds, its_fields)) => Cells {
            number: 0,
            kinds: [&its_kinds, &lent.kinds[kinds..]].concat(),
            fields: [&its_fields, &lent.fields[fields..]].concat(),
        },
    }
}

fn laid(sampler: &Sampler) -> Result<Laid, Refusal> {
    Ok(match sampler {
        Sampler::Gamma(shape, scale) => {
            let (kind, fields) = of_gamma(oracle::gamma(*shape, *scale)?);
            (vec![kind], fields.to_vec())
        }
        Sampler::Beta(alpha, beta) => {
            let (kinds, fields) = of_beta(oracle::beta(*alpha, *beta)?);
            (kinds.to_vec(), fields.to_vec())
        }
        Sampler::FisherF(m, n) => {
            let f = oracle::fisher_f(*m, *n)?.fields();
            let ((numer, above), (denom, below)) = (of_chi(f.numer), of_chi(f.denom));
            (
                vec![numer, denom],
                [&above[..], &below, &[bits(f.dof_ratio)]].concat(),
            )
        }
        Sampler::PertMode(pert) => of_pert(pert.with_mode()?),
        Sampler::PertMean(pert) => of_pert(pert.with_mean()?),
        _ => unreachable!("it shows nothing"),
    })
}

fn of_gamma(gamma: rand_distr::Gamma<K>) -> (usize, [u64; 5]) {
    match gamma.fields() {
        GammaFields::One { inverse_rate } => (1, [bits(inverse_rate), 0, 0, 0, 0]),
        GammaFields::Small {
            inv_shape,
            scale,
            c,
            d,
        } => (2, [0, bits(inv_shape), bits(scale), bits(c), bits(d)]),
        GammaFields::Large { scale, c, d } => (3, [0, 0, bits(scale), bits(c), bits(d)]),
    }
}

fn of_chi(chi: rand_distr::ChiSquared<K>) -> (usize, [u64; 5]) {
    match chi.fields() {
        ChiSquaredFields::Square => (0, [0; 5]),
        ChiSquaredFields::Gamma(gamma) => of_gamma(gamma),
    }
}

fn of_beta(made: rand_distr::Beta<K>) -> ([usize; 2], [u64; 7]) {
    match made.fields() {
        BetaFields::Bb {
            switched,
            a,
            b,
            alpha,
            beta,
            gamma,
        } => {
            let fields = [a, b, alpha, beta, gamma, K(0.0), K(0.0)];
            ([1, switched.into()], fields.map(bits))
        }
        BetaFields::Bc {
            switched,
            a,
            b,
            alpha,
            beta,
            kappa1,
            kappa2,
        } => {
            let fields = [a, b, alpha, beta, K(0.0), kappa1, kappa2];
            ([2, switched.into()], fields.map(bits))
        }
    }
}

fn of_pert(pert: rand_distr::Pert<K>) -> Laid {
    let pert = pert.fields();
    let (kinds, fields) = of_beta(pert.beta);
    (
        kinds.to_vec(),
        [&[bits(pert.min), bits(pert.range)], &fields[..]].concat(),
    )
}

// What each is lent after its own parameters stands here once.
macro_rules! constructors {
    ($($name:ident($($parameter:ident),+);)+) => {
        extern "C" {
            $(fn $name(
                $($parameter: f64,)+
                kinds: *mut usize,
                kinds_len: usize,
                fields: *mut f64,
                fields_len: usize,
            ) -> usize;)+
        }
    };
}

constructors! {
    eweb_gamma_made(shape, scale);
    eweb_beta_made(alpha, beta);
    eweb_fisher_f_made(m, n);
    eweb_pert_mode_made(min, max, shape, mode);
    eweb_pert_mean_made(min, max, shape, mean);
}

/// What the library left in the cells; nothing where a cell around those lent was written to.
pub fn seen(sampler: &Sampler, lent: &Cells, guard: u64) -> Option<Cells> {
    let mut guarded_kinds = Guarded::new(&lent.kinds, guard as usize);
    let mut guarded_fields = Guarded::new(&lent.fields, guard);
    let (kinds, fields) = (guarded_kinds.lent(), guarded_fields.lent());

    macro_rules! asked {
        ($function:ident($($argument:expr),+)) => {
            // SAFETY: pointers and lengths are of slices that are borrowed mutably, and overlap nothing. A float's cell is as large
            // as its word, and has the same alignment.
            unsafe {
                $function(
                    $($argument,)+
                    kinds.as_mut_ptr(),
                    kinds.len(),
                    fields.as_mut_ptr().cast(),
                    fields.len(),
                )
            }
        };
    }

    let number = match sampler {
        Sampler::Gamma(shape, scale) => asked!(eweb_gamma_made(*shape, *scale)),
        Sampler::Beta(alpha, beta) => asked!(eweb_beta_made(*alpha, *beta)),
        Sampler::FisherF(m, n) => asked!(eweb_fisher_f_made(*m, *n)),
        Sampler::PertMode(pert) => {
            let (min, max, shape, mode) = parameters(pert);
            asked!(eweb_pert_mode_made(min, max, shape, mode))
        }
        Sampler::PertMean(pert) => {
            let (min, max, shape, mean) = parameters(pert);
            asked!(eweb_pert_mean_made(min, max, shape, mean))
        }
        _ => unreachable!("it shows nothing"),
    };
    Some(Cells {
        number,
        kinds: guarded_kinds.taken()?,
        fields: guarded_fields.taken()?,
    })
}

/// Whether the crate tells the same of a sampler that was made.
pub fn alike(sampler: &Sampler, expected: &Cells) -> bool {
    if expected.number != 0 {
        return true;
    }
    let (kinds, fields) = told(sampler);
    let fields: Vec<u64> = fields.iter().map(|x| x.to_bits()).collect();
    expected.kinds.starts_with(&kinds) && expected.fields.starts_with(&fields)
}

fn told(sampler: &Sampler) -> (Vec<usize>, Vec<f64>) {
    const MADE: &str = "these parameters are not refused";
    match sampler {
        Sampler::Gamma(shape, scale) => {
            let gamma = ewebasket::Gamma::new(*shape, *scale).expect(MADE);
            let (kind, fields) = gamma_told(gamma.made());
            (vec![kind], fields.to_vec())
        }
        Sampler::Beta(alpha, beta) => {
            let beta = ewebasket::Beta::new(*alpha, *beta).expect(MADE);
            beta_told(beta.made())
        }
        Sampler::FisherF(m, n) => {
            let made = ewebasket::FisherF::new(*m, *n).expect(MADE).made();
            let ((numer, above), (denom, below)) = (chi_told(made.numer), chi_told(made.denom));
            (
                vec![numer, denom],
                [&above[..], &below, &[made.dof_ratio]].concat(),
            )
        }
        Sampler::PertMode(pert) => {
            pert_told(builder(pert).with_mode(pert.middle).expect(MADE).made())
        }
        Sampler::PertMean(pert) => {
            pert_told(builder(pert).with_mean(pert.middle).expect(MADE).made())
        }
        _ => unreachable!("it shows nothing"),
    }
}

fn gamma_told(made: GammaMade) -> (usize, [f64; 5]) {
    match made {
        GammaMade::One { lambda_inverse } => (1, [lambda_inverse, 0.0, 0.0, 0.0, 0.0]),
        GammaMade::Small {
            inv_shape,
            scale,
            c,
            d,
        } => (2, [0.0, inv_shape, scale, c, d]),
        GammaMade::Large { scale, c, d } => (3, [0.0, 0.0, scale, c, d]),
    }
}

fn chi_told(made: ChiSquaredMade) -> (usize, [f64; 5]) {
    match made {
        ChiSquaredMade::DoFExactlyOne => (0, [0.0; 5]),
        ChiSquaredMade::DoFAnythingElse(gamma) => gamma_told(gamma),
    }
}

fn beta_told(made: BetaMade) -> (Vec<usize>, Vec<f64>) {
    let (kind, [alpha, beta, gamma, kappa1, kappa2]) = match made.algorithm {
        BetaAlgorithm::BB { alpha, beta, gamma } => (1, [alpha, beta, gamma, 0.0, 0.0]),
        BetaAlgorithm::BC {
            alpha,
            beta,
            kappa1,
            kappa2,
        } => (2, [alpha, beta, 0.0, kappa1, kappa2]),
    };
    let fields = vec![made.a, made.b, alpha, beta, gamma, kappa1, kappa2];
    (vec![kind, made.switched_params.into()], fields)
}

fn pert_told(made: PertMade) -> (Vec<usize>, Vec<f64>) {
    let (kinds, fields) = beta_told(made.beta);
    (kinds, [&[made.min, made.range], &fields[..]].concat())
}
