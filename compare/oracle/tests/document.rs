//! Document 01's sampler rules written plainly, trial by number, beside the Rust: constructors' fields, samples, positions and
//! refusals, at parameters and raw fields of every size and at draws aimed within two steps of each test's threshold.

use compare::inputs::Random;
use compare::kernels::{exp, ln, powf, sqrt};
use oracle::inputs::{number, parameter, small_parameter, Draws};
use oracle::rand_distr::multi::{Dirichlet, DirichletFields};
use oracle::rand_distr::{
    Beta, BetaFields, ChiSquared, ChiSquaredFields, Distribution, FisherF, FisherFFields, Gamma,
    GammaFields, Pert, PertFields, StudentT, StudentTFields,
};
use oracle::{bits, Lent, Outcome, Positions, Refusal, K};

// ---- The rules.

type Drawn<T> = Result<(T, Positions), Refusal>;

// Draw number i of each kind, by its index in the lent slice.
fn draw(kind: u32, draws: &[f64], i: usize, usable: impl Fn(f64) -> bool) -> Result<f64, Refusal> {
    let refusal = |number| Refusal {
        number,
        kind,
        index: i,
    };
    match draws.get(i) {
        None => Err(refusal(19)),
        Some(&x) if usable(x) => Ok(x),
        Some(_) => Err(refusal(18)),
    }
}

fn uniform(lent: Lent, i: usize) -> Result<f64, Refusal> {
    draw(1, lent.uniforms, i, |x| x > 0.0 && x < 1.0)
}

fn normal(lent: Lent, i: usize) -> Result<f64, Refusal> {
    draw(2, lent.normals, i, |x| x.abs() < f64::INFINITY)
}

fn exponential(lent: Lent, i: usize) -> Result<f64, Refusal> {
    draw(3, lent.exponentials, i, |x| x > 0.0 && x < f64::INFINITY)
}

#[derive(Clone, Copy)]
struct Large {
    scale: f64,
    c: f64,
    d: f64,
}

#[derive(Clone, Copy)]
enum GammaRule {
    One(f64),
    Small(f64, Large),
    Large(Large),
}

fn large_made(shape: f64, scale: f64) -> Large {
    let d = shape - (1.0 / 3.0);
    let c = 1.0 / sqrt(9.0 * d);
    Large { scale, c, d }
}

fn gamma_made(shape: f64, scale: f64) -> Result<GammaRule, u32> {
    let above = |x: f64| x > 0.0;
    if !above(shape) {
        return Err(1);
    }
    if !above(scale) {
        return Err(2);
    }
    Ok(if shape.is_infinite() || scale.is_infinite() {
        GammaRule::One(1.0 / 0.0)
    } else if shape == 1.0 {
        GammaRule::One(1.0 / (1.0 / scale))
    } else if shape < 1.0 {
        GammaRule::Small(1.0 / shape, large_made(shape + 1.0, scale))
    } else {
        GammaRule::Large(large_made(shape, scale))
    })
}

// The v of the accepted trial.
fn large_trials(large: Large, lent: Lent, start: Positions) -> Drawn<f64> {
    let mut readers = 0;
    for k in 0.. {
        let x = normal(lent, start.normals + k)?;
        let w = 1.0 + large.c * x;
        if w <= 0.0 {
            continue;
        }
        let u = uniform(lent, start.uniforms + readers)?;
        readers += 1;
        let v = (w * w) * w;
        let square = x * x;
        if u < 1.0 - (0.0331 * square) * square
            || ln(u) < 0.5 * square + large.d * ((1.0 - v) + ln(v))
        {
            let at = Positions {
                uniforms: start.uniforms + readers,
                normals: start.normals + k + 1,
                ..start
            };
            return Ok((v, at));
        }
    }
    unreachable!("a trial without its normal is refused")
}

fn gamma_rule(gamma: GammaRule, lent: Lent, start: Positions) -> Drawn<f64> {
    match gamma {
        GammaRule::One(inverse) => {
            let e = exponential(lent, start.exponentials)?;
            let exponentials = start.exponentials + 1;
            Ok((
                e * inverse,
                Positions {
                    exponentials,
                    ..start
                },
            ))
        }
        GammaRule::Small(inverse, large) => {
            let u0 = uniform(lent, start.uniforms)?;
            let past = Positions {
                uniforms: start.uniforms + 1,
                ..start
            };
            let (v, at) = large_trials(large, lent, past)?;
            Ok((((v * powf(u0, inverse)) * large.d) * large.scale, at))
        }
        GammaRule::Large(large) => {
            let (v, at) = large_trials(large, lent, start)?;
            Ok((v * (large.d * large.scale), at))
        }
    }
}

#[derive(Clone, Copy)]
enum Kind {
    Bb { gamma: f64 },
    Bc { kappa1: f64, kappa2: f64 },
}

#[derive(Clone, Copy)]
struct BetaRule {
    switched: bool,
    a: f64,
    b: f64,
    alpha: f64,
    beta: f64,
    kind: Kind,
}

fn beta_made(a0: f64, b0: f64) -> Result<BetaRule, u32> {
    let above = |x: f64| x > 0.0;
    if !above(a0) {
        return Err(3);
    }
    if !above(b0) {
        return Err(4);
    }
    let switched = a0 >= b0;
    let (least, most) = if switched { (b0, a0) } else { (a0, b0) };
    let alpha = least + most;
    if least > 1.0 {
        let beta = sqrt((alpha - 2.0) / (2.0 * least * most - alpha));
        return Ok(BetaRule {
            switched,
            a: least,
            b: most,
            alpha,
            beta,
            kind: Kind::Bb {
                gamma: least + 1.0 / beta,
            },
        });
    }
    let (a, b) = (most, least);
    let beta = 1.0 / b;
    let delta = (1.0 + a) - b;
    let kappa1 = (delta * (1.0 / 18.0 / 4.0 + (3.0 / 18.0 / 4.0) * b)) / (a * beta - 14.0 / 18.0);
    let kappa2 = 0.25 + (0.5 + 0.25 / delta) * b;
    Ok(BetaRule {
        switched: !switched,
        a,
        b,
        alpha: a + b,
        beta,
        kind: Kind::Bc { kappa1, kappa2 },
    })
}

fn beta_accepts(rule: BetaRule, u1: f64, u2: f64) -> bool {
    let BetaRule {
        a,
        b,
        alpha,
        beta,
        kind,
        ..
    } = rule;
    let v = beta * ln(u1 / (1.0 - u1));
    let w = a * exp(v);
    match kind {
        Kind::Bb { gamma } => {
            let z = (u1 * u1) * u2;
            let r = gamma * v - ln(4.0);
            let s = (a + r) - w;
            let less = r + alpha * ln(alpha / (b + w)) < ln(z);
            (s + 1.0) + ln(5.0) >= 5.0 * z || s >= ln(z) || !less
        }
        Kind::Bc { kappa1, kappa2 } => {
            let z;
            if u1 < 0.5 {
                let y = u1 * u2;
                z = u1 * y;
                if (0.25 * u2 + z) - y >= kappa1 {
                    return false;
                }
            } else {
                z = (u1 * u1) * u2;
                if z <= 0.25 {
                    return true;
                }
                if z >= kappa2 {
                    return false;
                }
            }
            let less = alpha * (ln(alpha / (b + w)) + v) - ln(4.0) < ln(z);
            !less
        }
    }
}

fn beta_rule(rule: BetaRule, lent: Lent, start: Positions) -> Drawn<f64> {
    for k in 0.. {
        let u1 = uniform(lent, start.uniforms + 2 * k)?;
        let u2 = uniform(lent, start.uniforms + 2 * k + 1)?;
        if beta_accepts(rule, u1, u2) {
            let v = rule.beta * ln(u1 / (1.0 - u1));
            let w = rule.a * exp(v);
            let value = if rule.switched {
                rule.b / (rule.b + w)
            } else if w == f64::INFINITY {
                1.0
            } else {
                w / (rule.b + w)
            };
            let uniforms = start.uniforms + 2 * k + 2;
            return Ok((value, Positions { uniforms, ..start }));
        }
    }
    unreachable!("a trial without its uniforms is refused")
}

#[derive(Clone, Copy)]
enum ChiRule {
    Square,
    Gamma(GammaRule),
}

fn chi_made(k: f64) -> Result<ChiRule, u32> {
    if k == 1.0 {
        Ok(ChiRule::Square)
    } else if 0.5 * k > 0.0 {
        gamma_made(0.5 * k, 2.0).map(ChiRule::Gamma)
    } else {
        Err(5)
    }
}

fn chi_rule(chi: ChiRule, lent: Lent, start: Positions) -> Drawn<f64> {
    match chi {
        ChiRule::Square => {
            let x = normal(lent, start.normals)?;
            let normals = start.normals + 1;
            Ok((x * x, Positions { normals, ..start }))
        }
        ChiRule::Gamma(gamma) => gamma_rule(gamma, lent, start),
    }
}

fn pert_made(min: f64, max: f64, shape: f64, mode: f64) -> Result<(f64, f64, BetaRule), u32> {
    let ordered = |low: f64, high: f64| low <= high;
    if !(ordered(min, max) && min != max) {
        return Err(8);
    }
    if !(ordered(min, mode) && ordered(mode, max)) {
        return Err(9);
    }
    if !ordered(0.0, shape) {
        return Err(10);
    }
    let range = max - min;
    let v = 1.0 + shape * (mode - min) / range;
    let w = 1.0 + shape * (max - mode) / range;
    let beta = beta_made(v, w).map_err(|_| 8u32)?;
    Ok((min, range, beta))
}

fn scan(alpha: &[f64]) -> Result<(), Refusal> {
    if alpha.len() < 2 {
        return Err(Refusal::plain(11));
    }
    if alpha.len() > 4096 {
        return Err(Refusal::plain(15));
    }
    for (i, &x) in alpha.iter().enumerate() {
        if x.is_nan() || x <= 0.0 {
            return Err(Refusal::of_element(12, i));
        }
        if x == f64::INFINITY {
            return Err(Refusal::of_element(13, i));
        }
        if x < f64::MIN_POSITIVE {
            return Err(Refusal::of_element(14, i));
        }
    }
    Ok(())
}

fn dirichlet_rule(alpha: &[f64], lent: Lent, start: Positions) -> Drawn<Vec<f64>> {
    let n = alpha.len();
    let mut at = start;
    let mut vector = Vec::new();
    if alpha.iter().all(|&x| x <= 0.1) {
        let mut tails = vec![0.0; n];
        for i in (0..n - 1).rev() {
            tails[i] = if i == n - 2 {
                alpha[n - 1]
            } else {
                tails[i + 1] + alpha[i + 1]
            };
        }
        let mut acc = 1.0;
        for i in 0..n - 1 {
            let rule = beta_made(alpha[i], tails[i]).unwrap_or_else(|_| panic!("not to arise"));
            let (sample, past) = beta_rule(rule, lent, at)?;
            vector.push(acc * sample);
            acc *= 1.0 - sample;
            at = past;
        }
        vector.push(acc);
    } else {
        let mut sum = 0.0;
        for &x in alpha {
            let rule = gamma_made(x, 1.0).unwrap_or_else(|_| panic!("not to arise"));
            let (sample, past) = gamma_rule(rule, lent, at)?;
            vector.push(sample);
            sum += sample;
            at = past;
        }
        let inverse = 1.0 / sum;
        for component in &mut vector {
            *component *= inverse;
        }
    }
    Ok((vector, at))
}

// ---- The same samplers of the Rust, by their fields.

fn gamma_of(rule: GammaRule) -> Gamma<K> {
    Gamma::from_fields(match rule {
        GammaRule::One(inverse) => GammaFields::One {
            inverse_rate: K(inverse),
        },
        GammaRule::Small(inverse, Large { scale, c, d }) => GammaFields::Small {
            inv_shape: K(inverse),
            scale: K(scale),
            c: K(c),
            d: K(d),
        },
        GammaRule::Large(Large { scale, c, d }) => GammaFields::Large {
            scale: K(scale),
            c: K(c),
            d: K(d),
        },
    })
}

fn beta_of(rule: BetaRule) -> Beta<K> {
    let BetaRule {
        switched,
        a,
        b,
        alpha,
        beta,
        kind,
    } = rule;
    let (a, b, alpha, beta) = (K(a), K(b), K(alpha), K(beta));
    Beta::from_fields(match kind {
        Kind::Bb { gamma } => BetaFields::Bb {
            switched,
            a,
            b,
            alpha,
            beta,
            gamma: K(gamma),
        },
        Kind::Bc { kappa1, kappa2 } => BetaFields::Bc {
            switched,
            a,
            b,
            alpha,
            beta,
            kappa1: K(kappa1),
            kappa2: K(kappa2),
        },
    })
}

fn chi_of(rule: ChiRule) -> ChiSquared<K> {
    ChiSquared::from_fields(match rule {
        ChiRule::Square => ChiSquaredFields::Square,
        ChiRule::Gamma(gamma) => ChiSquaredFields::Gamma(gamma_of(gamma)),
    })
}

// Fields as words, so that NaN fields and zeros of either sign are told.
fn gamma_words(gamma: Gamma<K>) -> String {
    oracle::gamma_words(gamma.fields(), bits)
}

fn beta_words(beta: Beta<K>) -> String {
    oracle::beta_words(beta.fields(), bits)
}

fn chi_words(chi: ChiSquared<K>) -> String {
    match chi.fields() {
        ChiSquaredFields::Square => "square".to_string(),
        ChiSquaredFields::Gamma(gamma) => gamma_words(gamma),
    }
}

// ---- The comparison.

fn numbered<T>(made: Result<T, u32>) -> Result<T, Refusal> {
    made.map_err(Refusal::plain)
}

// What a call comes to by the document: the constructor's number, 17, then the draws.
fn by_document<S: Copy, T>(
    made: Result<S, Refusal>,
    rule: impl Fn(S, Lent, Positions) -> Drawn<T>,
    draws: &Draws,
) -> Outcome<T> {
    let drawn = made.and_then(|sampler| {
        if draws.above() {
            return Err(Refusal::plain(17));
        }
        rule(sampler, draws.lent(), draws.at)
    });
    match drawn {
        Ok((value, at)) => Outcome {
            answer: Ok(value),
            at,
        },
        Err(refusal) => Outcome {
            answer: Err(refusal),
            at: draws.at,
        },
    }
}

/// How often each answer came up, so that a comparison of refusals alone would show.
#[derive(Debug, Default)]
struct Tally {
    samples: usize,
    late: usize,
    refusals: usize,
}

impl Tally {
    // `late` counts the samples that took more than one trial.
    fn note<T>(&mut self, outcome: &Outcome<T>, first_trial: bool) {
        match outcome.answer {
            Ok(_) => {
                self.samples += 1;
                self.late += usize::from(!first_trial);
            }
            Err(_) => self.refusals += 1,
        }
    }
}

fn agree<S: Copy, D: Distribution<K>>(
    rust: Result<D, Refusal>,
    made: Result<S, Refusal>,
    rule: impl Fn(S, Lent, Positions) -> Drawn<f64>,
    draws: &Draws,
    tally: &mut Tally,
) {
    let document = by_document(made, rule, draws);
    let document = Outcome {
        answer: document.answer.map(|x| bits(K(x))),
        at: document.at,
    };
    let outcome = oracle::sample(rust, draws.lent(), draws.at);
    assert_eq!(outcome, document, "{draws:?}");
    let normals = outcome.at.normals - draws.at.normals;
    let uniforms = outcome.at.uniforms - draws.at.uniforms;
    tally.note(&outcome, normals <= 1 && uniforms <= 2);
}

const CASES: usize = 20_000;

#[test]
fn gamma_made_and_sampled() {
    let mut random = Random::new(1);
    let mut tally = Tally::default();
    for _ in 0..CASES {
        let (shape, scale) = (parameter(&mut random), parameter(&mut random));
        let made = numbered(gamma_made(shape, scale));
        let rust = oracle::gamma(shape, scale);
        let words = made.map(gamma_of).map(gamma_words);
        assert_eq!(rust.map(gamma_words), words, "{shape:e} {scale:e}");
        let mut draws = Draws::random(&mut random, [12; 3]);
        match made {
            Ok(GammaRule::Large(large)) => draws.aim_gamma(large.c, large.d, 0, &mut random),
            Ok(GammaRule::Small(_, large)) => draws.aim_gamma(large.c, large.d, 1, &mut random),
            _ => (),
        }
        agree(rust, made, gamma_rule, &draws, &mut tally);
    }
    println!("{tally:?}");
    assert!(tally.samples > CASES / 4 && tally.late > CASES / 100);
}

fn raw_large(random: &mut Random) -> Large {
    Large {
        scale: number(random),
        c: number(random),
        d: number(random),
    }
}

fn raw_gamma(random: &mut Random) -> GammaRule {
    match random.below(5) {
        0 => GammaRule::One(number(random)),
        1 | 2 => GammaRule::Small(number(random), raw_large(random)),
        _ => GammaRule::Large(raw_large(random)),
    }
}

#[test]
fn gamma_of_raw_fields() {
    let mut random = Random::new(2);
    let mut tally = Tally::default();
    for _ in 0..CASES {
        let rule = raw_gamma(&mut random);
        let mut draws = Draws::random(&mut random, [12; 3]);
        match rule {
            GammaRule::Large(large) => draws.aim_gamma(large.c, large.d, 0, &mut random),
            GammaRule::Small(_, large) => draws.aim_gamma(large.c, large.d, 1, &mut random),
            GammaRule::One(_) => (),
        }
        agree(Ok(gamma_of(rule)), Ok(rule), gamma_rule, &draws, &mut tally);
    }
    println!("{tally:?}");
    assert!(tally.samples > CASES / 4 && tally.late > CASES / 100);
}

#[test]
fn beta_made_and_sampled() {
    let mut random = Random::new(3);
    let mut tally = Tally::default();
    for _ in 0..CASES {
        let (alpha, beta) = match random.below(8) {
            0 => {
                let x = parameter(&mut random);
                (x, x)
            }
            _ => (parameter(&mut random), parameter(&mut random)),
        };
        let made = numbered(beta_made(alpha, beta));
        let rust = oracle::beta(alpha, beta);
        let words = made.map(beta_of).map(beta_words);
        assert_eq!(rust.map(beta_words), words, "{alpha:e} {beta:e}");
        let mut draws = Draws::random(&mut random, [20; 3]);
        if let Ok(rule) = made {
            draws.aim_beta(beta_of(rule).fields(), &mut random);
        }
        agree(rust, made, beta_rule, &draws, &mut tally);
    }
    println!("{tally:?}");
    assert!(tally.samples > CASES / 4 && tally.late > CASES / 100);
}

#[test]
fn beta_of_raw_fields() {
    let mut random = Random::new(4);
    let mut tally = Tally::default();
    for _ in 0..CASES {
        let mut field = || number(&mut random);
        let (a, b, alpha, beta) = (field(), field(), field(), field());
        let (kappa1, kappa2) = (field(), field());
        let kind = match random.below(2) {
            0 => Kind::Bb { gamma: kappa1 },
            _ => Kind::Bc { kappa1, kappa2 },
        };
        let rule = BetaRule {
            switched: random.below(2) == 0,
            a,
            b,
            alpha,
            beta,
            kind,
        };
        let mut draws = Draws::random(&mut random, [20; 3]);
        draws.aim_beta(beta_of(rule).fields(), &mut random);
        agree(Ok(beta_of(rule)), Ok(rule), beta_rule, &draws, &mut tally);
    }
    println!("{tally:?}");
    assert!(tally.samples > CASES / 4 && tally.late > CASES / 100);
}

#[test]
fn chi_squared_fisher_and_student() {
    let mut random = Random::new(5);
    let mut tally = Tally::default();
    for _ in 0..CASES {
        let (m, n) = (parameter(&mut random), parameter(&mut random));
        let draws = Draws::random(&mut random, [16; 3]);

        let chi = numbered(chi_made(m));
        let rust = oracle::chi_squared(m);
        assert_eq!(rust.map(chi_words), chi.map(chi_of).map(chi_words));
        agree(rust, chi, chi_rule, &draws, &mut tally);

        let student = |chi, lent: Lent, start: Positions| {
            let norm = normal(lent, start.normals)?;
            let normals = start.normals + 1;
            let (chi, at) = chi_rule(chi, lent, Positions { normals, ..start })?;
            Ok((norm * sqrt(m / chi), at))
        };
        let rust = oracle::student_t(m);
        if let (Ok(sampler), Ok(chi)) = (rust, chi) {
            let fields: StudentTFields<K> = sampler.fields();
            assert_eq!(chi_words(fields.chi), chi_words(chi_of(chi)));
            assert_eq!(bits(fields.dof), bits(K(m)));
        }
        agree(rust, chi, student, &draws, &mut tally);

        let pair = chi_made(m)
            .map_err(|_| 6)
            .and_then(|numer| Ok((numer, chi_made(n).map_err(|_| 7u32)?)));
        let fisher = |(numer, denom), lent: Lent, start: Positions| {
            let (numer, at) = chi_rule(numer, lent, start)?;
            let (denom, at) = chi_rule(denom, lent, at)?;
            Ok(((numer / denom) * (n / m), at))
        };
        let rust = oracle::fisher_f(m, n);
        if let (Ok(sampler), Ok((numer, denom))) = (rust, pair) {
            let fields: FisherFFields<K> = sampler.fields();
            assert_eq!(chi_words(fields.numer), chi_words(chi_of(numer)));
            assert_eq!(chi_words(fields.denom), chi_words(chi_of(denom)));
            assert_eq!(bits(fields.dof_ratio), bits(K(n / m)));
        }
        agree(rust, numbered(pair), fisher, &draws, &mut tally);
    }
    println!("{tally:?}");
    assert!(tally.samples > CASES / 2);
}

#[test]
fn raw_fisher_and_student() {
    let mut random = Random::new(6);
    let mut tally = Tally::default();
    let raw_chi = |random: &mut Random| match random.below(4) {
        0 => ChiRule::Square,
        _ => ChiRule::Gamma(raw_gamma(random)),
    };
    for _ in 0..CASES / 2 {
        let (first, second) = (raw_chi(&mut random), raw_chi(&mut random));
        let factor = number(&mut random);
        let draws = Draws::random(&mut random, [16; 3]);
        let student = |chi, lent: Lent, start: Positions| {
            let norm = normal(lent, start.normals)?;
            let normals = start.normals + 1;
            let (chi, at) = chi_rule(chi, lent, Positions { normals, ..start })?;
            Ok((norm * sqrt(factor / chi), at))
        };
        let rust = StudentT::from_fields(StudentTFields {
            chi: chi_of(first),
            dof: K(factor),
        });
        agree(Ok(rust), Ok(first), student, &draws, &mut tally);
        let fisher = |(numer, denom), lent: Lent, start: Positions| {
            let (numer, at) = chi_rule(numer, lent, start)?;
            let (denom, at) = chi_rule(denom, lent, at)?;
            Ok(((numer / denom) * factor, at))
        };
        let rust = FisherF::from_fields(FisherFFields {
            numer: chi_of(first),
            denom: chi_of(second),
            dof_ratio: K(factor),
        });
        agree(Ok(rust), Ok((first, second)), fisher, &draws, &mut tally);
    }
    println!("{tally:?}");
    assert!(tally.samples > CASES / 8);
}

#[test]
fn pert() {
    let mut random = Random::new(7);
    let mut tally = Tally::default();
    for _ in 0..CASES {
        let min = number(&mut random);
        let max = match random.below(4) {
            0 => number(&mut random),
            _ => min + parameter(&mut random),
        };
        let middle = match random.below(4) {
            0 => number(&mut random),
            1 => min,
            2 => max,
            _ => min + random.unit() * (max - min),
        };
        let shape = match random.below(3) {
            0 => None,
            1 => Some(number(&mut random)),
            _ => Some(parameter(&mut random)),
        };
        let given = shape.unwrap_or(4.0);
        let draws = Draws::random(&mut random, [20; 3]);
        let rule = |(min, range, beta): (f64, f64, BetaRule), lent: Lent, start: Positions| {
            let (sample, at) = beta_rule(beta, lent, start)?;
            Ok((sample * range + min, at))
        };
        let mode = (((given + 2.0) * middle - min) - max) / given;
        for (rust, mode) in [
            (oracle::pert_with_mode(min, max, shape, middle), middle),
            (oracle::pert_with_mean(min, max, shape, middle), mode),
        ] {
            let made = numbered(pert_made(min, max, given, mode));
            if let (Ok(sampler), Ok((min, range, beta))) = (&rust, &made) {
                let fields: PertFields<K> = Pert::fields(sampler);
                assert_eq!(bits(fields.min), bits(K(*min)));
                assert_eq!(bits(fields.range), bits(K(*range)));
                assert_eq!(beta_words(fields.beta), beta_words(beta_of(*beta)));
            }
            agree(rust, made, rule, &draws, &mut tally);
        }
    }
    println!("{tally:?}");
    assert!(tally.samples > CASES / 8);
}

#[test]
fn dirichlet() {
    let mut random = Random::new(8);
    let mut tally = Tally::default();
    const LENT: u64 = 0x7ff4_0000_0000_0077;
    for _ in 0..CASES {
        let n = random.below(7) as usize;
        let beta_route = random.below(2) == 0;
        let alpha: Vec<f64> = (0..n)
            .map(|_| match beta_route {
                true => small_parameter(&mut random),
                false => parameter(&mut random),
            })
            .collect();
        let length = match random.below(16) {
            0 => random.below(7) as usize,
            _ => n,
        };
        let draws = Draws::random(&mut random, [40; 3]);
        let made = scan(&alpha).and_then(|()| match length == n {
            true => Ok(alpha.as_slice()),
            false => Err(Refusal::plain(16)),
        });
        let document = by_document(made, dirichlet_rule, &draws);
        let expected = match (&document.answer, document.answer.as_ref().err()) {
            (Ok(vector), _) => vector.iter().map(|x| bits(K(*x))).collect(),
            (_, Some(refusal)) if refusal.number > 17 => vec![0; length],
            _ => vec![LENT; length],
        };
        let document = Outcome {
            answer: document.answer.map(|_| ()),
            at: document.at,
        };
        let mut cells = vec![LENT; length];
        let rust = oracle::dirichlet(&alpha);
        let outcome = oracle::vector(rust.clone(), draws.lent(), draws.at, &mut cells);
        assert_eq!(outcome, document, "{alpha:?} {draws:?}");
        assert_eq!(cells, expected, "{alpha:?} {draws:?}");
        tally.note(&outcome, true);
        // Put in again, its samplers are the same Dirichlet.
        if let Ok(sampler) = rust {
            let fields: DirichletFields<K> = sampler.fields();
            let mut again = vec![LENT; length];
            let rust = Ok(Dirichlet::from_fields(fields));
            let outcome = oracle::vector(rust, draws.lent(), draws.at, &mut again);
            assert_eq!((outcome, again), (document, cells));
        }
    }
    println!("{tally:?}");
    assert!(tally.samples > CASES / 8);
}
