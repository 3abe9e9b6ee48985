//! Answers requests, one line each, from standard input to standard output: whatever the language of a test, it can ask the
//! Rust by this program.
//!
//! Words are separated by one space. A NUMBER is 16 hex digits, the bits of an f64; a LIST is numbers separated by commas, or
//! `-` where it is empty. In a list `COUNT*NUMBER` stands for COUNT equal numbers; an answer has it for two and more. Positions
//! and counts are decimal; a list or an output has 8,192 numbers at most.
//!
//! # Requests
//!
//! ```text
//! SAMPLER DRAWS                  one sample
//! SAMPLER DRAWS COUNT CELL       a fill of COUNT cells, each lent as the number CELL
//! SAMPLER                        the fields that the constructor made
//! ```
//!
//! DRAWS are three lists and three positions, `UNIFORMS NORMALS EXPONENTIALS PU PN PE`. What SAMPLER is, and what is asked of
//! it, its first word says:
//!
//! ```text
//! one sample  a fill          the fields        then
//! gamma       gamma-fill      gamma-fields      SHAPE SCALE
//! beta        beta-fill       beta-fields       ALPHA BETA
//! chi         chi-fill        chi-fields        K
//! fisher      fisher-fill     fisher-fields     M N
//! student     student-fill    student-fields    NU
//! pert-mode   pert-mode-fill  pert-mode-fields  MIN MAX SHAPE MODE    SHAPE `-` is the default
//! pert-mean   pert-mean-fill  pert-mean-fields  MIN MAX SHAPE MEAN    SHAPE `-` is the default
//! dirichlet   none            dirichlet-fields  ALPHAS, a list
//! ```
//!
//! `dirichlet` takes `COUNT CELL` after its draws, as a fill does: COUNT is the length of the output.
//!
//! With `-raw` after the name (`gamma-raw`, `gamma-raw-fill`; for both Perts `pert-raw`), FIELDS stand for the arguments, so
//! that no constructor is asked:
//!
//! ```text
//! gamma      one INVERSE-RATE
//!            small INV-SHAPE SCALE C D
//!            large SCALE C D
//! beta       bb SWITCHED A B ALPHA BETA GAMMA                 SWITCHED is 0 or 1
//!            bc SWITCHED A B ALPHA BETA KAPPA1 KAPPA2
//! chi        square                                           a normal squared
//!            gamma FIELDS-OF-GAMMA
//! fisher     FIELDS-OF-CHI FIELDS-OF-CHI RATIO                numerator, denominator, n/m
//! student    FIELDS-OF-CHI NU
//! pert       MIN RANGE FIELDS-OF-BETA
//! dirichlet  gamma COUNT FIELDS-OF-GAMMA..                    COUNT samplers
//!            beta COUNT FIELDS-OF-BETA..                      COUNT samplers, for COUNT + 1 components
//! ```
//!
//! # Answers
//!
//! ```text
//! sample NUMBER PU PN PE                            one sample
//! refused NUMBER-OF-REFUSAL KIND INDEX PU PN PE     instead of one sample
//! filled PU PN PE CELLS                             a fill or a vector; CELLS is a list
//! refused NUMBER-OF-REFUSAL KIND INDEX PU PN PE CELLS
//! fields FIELDS                                     in the form above
//! refused NUMBER-OF-REFUSAL KIND INDEX              instead of fields
//! unreadable WHY                                    the request has not this form
//! ```
//!
//! A refusal's number, kind and index are decimal. Every NaN is answered as 7ff8000000000000, save in a cell left as lent.
//! The program ends with 1 if a request was unreadable.
//!
//! ```text
//! gamma 3ff0000000000000 4000000000000000 - - 3ff0000000000000 0 0 0
//! sample 4000000000000000 0 0 1
//! ```

use oracle::rand_distr::multi::{Dirichlet, DirichletFields};
use oracle::rand_distr::{
    Beta, ChiSquared, ChiSquaredFields, Distribution, FisherF, FisherFFields, Gamma, Pert,
    PertFields, StudentT, StudentTFields,
};
use oracle::{
    beta_of, beta_words, bits, gamma_of, gamma_words, numbers, Lent, Outcome, Positions, Refusal,
    BETA_KINDS, GAMMA_KINDS, K,
};
use std::io::{BufRead, Write};
use std::process::ExitCode;
use std::str::Split;

type Read<T> = Result<T, String>;

/// The words of a request that are still to be read.
struct Words<'a>(Split<'a, char>);

impl Words<'_> {
    fn word(&mut self) -> Read<&str> {
        self.0.next().ok_or_else(|| "a word is missing".to_string())
    }

    fn bits(&mut self) -> Read<u64> {
        bits_of(self.word()?)
    }

    fn number(&mut self) -> Read<f64> {
        self.bits().map(f64::from_bits)
    }

    fn k(&mut self) -> Read<K> {
        self.number().map(K)
    }

    fn ks(&mut self, count: usize) -> Read<Vec<K>> {
        (0..count).map(|_| self.k()).collect()
    }

    // One of these kinds, and how many numbers it keeps.
    fn kind(&mut self, kinds: &[(&'static str, usize)]) -> Read<(&'static str, usize)> {
        let word = self.word()?;
        let found = kinds.iter().find(|(kind, _)| *kind == word);
        found
            .copied()
            .ok_or_else(|| format!("{word:?} is no kind of it"))
    }

    fn number_or_default(&mut self) -> Read<Option<f64>> {
        match self.word()? {
            "-" => Ok(None),
            word => bits_of(word).map(|word| Some(f64::from_bits(word))),
        }
    }

    fn list(&mut self) -> Read<Vec<f64>> {
        let mut numbers = Vec::new();
        match self.word()? {
            "-" => (),
            list => {
                for run in list.split(',') {
                    let (count, number) = run_of(run)?;
                    few(numbers.len().saturating_add(count))?;
                    numbers.extend(std::iter::repeat_n(number, count));
                }
            }
        }
        Ok(numbers)
    }

    fn decimal(&mut self) -> Read<usize> {
        decimal_of(self.word()?)
    }

    fn flag(&mut self) -> Read<bool> {
        match self.word()? {
            "0" => Ok(false),
            "1" => Ok(true),
            word => Err(format!("{word:?} is neither 0 nor 1")),
        }
    }

    fn draws(&mut self) -> Read<Draws> {
        Ok(Draws {
            uniforms: self.list()?,
            normals: self.list()?,
            exponentials: self.list()?,
            at: Positions {
                uniforms: self.decimal()?,
                normals: self.decimal()?,
                exponentials: self.decimal()?,
            },
        })
    }

    fn cells(&mut self) -> Read<Vec<u64>> {
        let count = few(self.decimal()?)?;
        let cell = self.bits()?;
        Ok(vec![cell; count])
    }

    fn end(&mut self) -> Read<()> {
        match self.0.next() {
            None => Ok(()),
            Some(word) => Err(format!("{word:?} is a word too many")),
        }
    }
}

fn bits_of(word: &str) -> Read<u64> {
    let digits = word.len() == 16 && word.bytes().all(|byte| byte.is_ascii_hexdigit());
    match u64::from_str_radix(word, 16) {
        Ok(number) if digits => Ok(number),
        _ => Err(format!("{word:?} has not 16 hex digits")),
    }
}

fn decimal_of(word: &str) -> Read<usize> {
    word.parse()
        .map_err(|_| format!("{word:?} is no decimal number"))
}

// A number of a list, and how often it stands there.
fn run_of(word: &str) -> Read<(usize, f64)> {
    let (count, number) = match word.split_once('*') {
        None => (1, word),
        Some((count, number)) => (decimal_of(count)?, number),
    };
    Ok((count, f64::from_bits(bits_of(number)?)))
}

fn few(count: usize) -> Read<usize> {
    match count {
        0..=8192 => Ok(count),
        _ => Err(format!("{count} numbers are too many")),
    }
}

struct Draws {
    uniforms: Vec<f64>,
    normals: Vec<f64>,
    exponentials: Vec<f64>,
    at: Positions,
}

impl Draws {
    fn lent(&self) -> Lent<'_> {
        Lent {
            uniforms: &self.uniforms,
            normals: &self.normals,
            exponentials: &self.exponentials,
        }
    }
}

/// A sampler by its fields, in the form of a request and of an answer.
trait Raw: Sized {
    fn read(words: &mut Words) -> Read<Self>;
    fn written(&self) -> String;
}

fn hex(kept: &[K]) -> String {
    numbers(kept, bits)
}

impl Raw for Gamma<K> {
    fn read(words: &mut Words) -> Read<Self> {
        let (kind, count) = words.kind(&GAMMA_KINDS)?;
        let kept = words.ks(count)?;
        let fields = gamma_of(kind, &kept).expect("a kind and its count");
        Ok(Gamma::from_fields(fields))
    }

    fn written(&self) -> String {
        gamma_words(self.fields(), bits)
    }
}

impl Raw for Beta<K> {
    fn read(words: &mut Words) -> Read<Self> {
        let (kind, count) = words.kind(&BETA_KINDS)?;
        let switched = words.flag()?;
        let kept = words.ks(count)?;
        let fields = beta_of(kind, switched, &kept).expect("a kind and its count");
        Ok(Beta::from_fields(fields))
    }

    fn written(&self) -> String {
        beta_words(self.fields(), bits)
    }
}

impl Raw for ChiSquared<K> {
    fn read(words: &mut Words) -> Read<Self> {
        let fields = match words.word()? {
            "square" => ChiSquaredFields::Square,
            "gamma" => ChiSquaredFields::Gamma(Raw::read(words)?),
            word => return Err(format!("{word:?} is no kind of chi")),
        };
        Ok(ChiSquared::from_fields(fields))
    }

    fn written(&self) -> String {
        match self.fields() {
            ChiSquaredFields::Square => "square".to_string(),
            ChiSquaredFields::Gamma(gamma) => format!("gamma {}", gamma.written()),
        }
    }
}

impl Raw for FisherF<K> {
    fn read(words: &mut Words) -> Read<Self> {
        Ok(FisherF::from_fields(FisherFFields {
            numer: Raw::read(words)?,
            denom: Raw::read(words)?,
            dof_ratio: words.k()?,
        }))
    }

    fn written(&self) -> String {
        let FisherFFields {
            numer,
            denom,
            dof_ratio,
        } = self.fields();
        let (numer, denom) = (numer.written(), denom.written());
        format!("{numer} {denom} {}", hex(&[dof_ratio]))
    }
}

impl Raw for StudentT<K> {
    fn read(words: &mut Words) -> Read<Self> {
        Ok(StudentT::from_fields(StudentTFields {
            chi: Raw::read(words)?,
            dof: words.k()?,
        }))
    }

    fn written(&self) -> String {
        let StudentTFields { chi, dof } = self.fields();
        format!("{} {}", chi.written(), hex(&[dof]))
    }
}

impl Raw for Pert<K> {
    fn read(words: &mut Words) -> Read<Self> {
        Ok(Pert::from_fields(PertFields {
            min: words.k()?,
            range: words.k()?,
            beta: Raw::read(words)?,
        }))
    }

    fn written(&self) -> String {
        let PertFields { min, range, beta } = self.fields();
        format!("{} {}", hex(&[min, range]), beta.written())
    }
}

impl Raw for Dirichlet<K> {
    fn read(words: &mut Words) -> Read<Self> {
        let fields = match words.word()? {
            "gamma" => DirichletFields::Gammas(read_all(words)?),
            "beta" => DirichletFields::Betas(read_all(words)?),
            word => return Err(format!("{word:?} is no route of dirichlet")),
        };
        Ok(Dirichlet::from_fields(fields))
    }

    fn written(&self) -> String {
        match self.fields() {
            DirichletFields::Gammas(samplers) => format!("gamma {}", written_all(&samplers)),
            DirichletFields::Betas(samplers) => format!("beta {}", written_all(&samplers)),
        }
    }
}

fn read_all<S: Raw>(words: &mut Words) -> Read<Vec<S>> {
    let count = words.decimal()?;
    (0..count).map(|_| S::read(words)).collect()
}

fn written_all<S: Raw>(samplers: &[S]) -> String {
    let each = samplers.iter().map(S::written);
    let words: Vec<String> = [samplers.len().to_string()]
        .into_iter()
        .chain(each)
        .collect();
    words.join(" ")
}

fn positions(at: Positions) -> String {
    format!("{} {} {}", at.uniforms, at.normals, at.exponentials)
}

fn refused(refusal: Refusal) -> String {
    let Refusal {
        number,
        kind,
        index,
    } = refusal;
    format!("refused {number} {kind} {index}")
}

fn sampled(outcome: Outcome<u64>) -> String {
    let at = positions(outcome.at);
    match outcome.answer {
        Ok(word) => format!("sample {word:016x} {at}"),
        Err(refusal) => format!("{} {at}", refused(refusal)),
    }
}

fn filled(outcome: Outcome<()>, cells: &[u64]) -> String {
    let at = positions(outcome.at);
    let cells = oracle::list(cells);
    match outcome.answer {
        Ok(()) => format!("filled {at} {cells}"),
        Err(refusal) => format!("{} {at} {cells}", refused(refusal)),
    }
}

fn fields<S: Raw>(made: Result<S, Refusal>) -> String {
    match made {
        Ok(sampler) => format!("fields {}", sampler.written()),
        Err(refusal) => refused(refusal),
    }
}

#[derive(Clone, Copy)]
enum Asked {
    Sample,
    Fill,
    Fields,
}

// The rest of a request for any sampler but a Dirichlet.
fn one<S: Raw + Distribution<K>>(
    asked: Asked,
    made: Result<S, Refusal>,
    words: &mut Words,
) -> Read<String> {
    match asked {
        Asked::Sample => {
            let draws = words.draws()?;
            words.end()?;
            Ok(sampled(oracle::sample(made, draws.lent(), draws.at)))
        }
        Asked::Fill => {
            let draws = words.draws()?;
            let mut cells = words.cells()?;
            words.end()?;
            let outcome = oracle::fill(made, draws.lent(), draws.at, &mut cells);
            Ok(filled(outcome, &cells))
        }
        Asked::Fields => {
            words.end()?;
            Ok(fields(made))
        }
    }
}

fn many(asked: Asked, made: Result<Dirichlet<K>, Refusal>, words: &mut Words) -> Read<String> {
    match asked {
        Asked::Sample => {
            let draws = words.draws()?;
            let mut cells = words.cells()?;
            words.end()?;
            let outcome = oracle::vector(made, draws.lent(), draws.at, &mut cells);
            Ok(filled(outcome, &cells))
        }
        Asked::Fill => Err("a dirichlet has no fill".to_string()),
        Asked::Fields => {
            words.end()?;
            Ok(fields(made))
        }
    }
}

fn raw<S: Raw>(words: &mut Words) -> Read<Result<S, Refusal>> {
    S::read(words).map(Ok)
}

fn answer(request: &str) -> Read<String> {
    let mut words = Words(request.split(' '));
    let words = &mut words;
    let first = words.word()?.to_string();
    let (name, asked) = match (first.strip_suffix("-fill"), first.strip_suffix("-fields")) {
        (Some(name), _) => (name, Asked::Fill),
        (_, Some(name)) => (name, Asked::Fields),
        _ => (first.as_str(), Asked::Sample),
    };
    match name {
        "gamma" => one(
            asked,
            oracle::gamma(words.number()?, words.number()?),
            words,
        ),
        "gamma-raw" => one(asked, raw::<Gamma<K>>(words)?, words),
        "beta" => one(asked, oracle::beta(words.number()?, words.number()?), words),
        "beta-raw" => one(asked, raw::<Beta<K>>(words)?, words),
        "chi" => one(asked, oracle::chi_squared(words.number()?), words),
        "chi-raw" => one(asked, raw::<ChiSquared<K>>(words)?, words),
        "fisher" => one(
            asked,
            oracle::fisher_f(words.number()?, words.number()?),
            words,
        ),
        "fisher-raw" => one(asked, raw::<FisherF<K>>(words)?, words),
        "student" => one(asked, oracle::student_t(words.number()?), words),
        "student-raw" => one(asked, raw::<StudentT<K>>(words)?, words),
        "pert-mode" => {
            let (min, max) = (words.number()?, words.number()?);
            let (shape, mode) = (words.number_or_default()?, words.number()?);
            one(asked, oracle::pert_with_mode(min, max, shape, mode), words)
        }
        "pert-mean" => {
            let (min, max) = (words.number()?, words.number()?);
            let (shape, mean) = (words.number_or_default()?, words.number()?);
            one(asked, oracle::pert_with_mean(min, max, shape, mean), words)
        }
        "pert-raw" => one(asked, raw::<Pert<K>>(words)?, words),
        "dirichlet" => many(asked, oracle::dirichlet(&words.list()?), words),
        "dirichlet-raw" => many(asked, raw(words)?, words),
        _ => Err(format!("{first:?} is no request")),
    }
}

fn main() -> std::io::Result<ExitCode> {
    let mut end = ExitCode::SUCCESS;
    // Standard output is written at each line's end, so that a test may wait for each answer.
    let mut out = std::io::stdout().lock();
    for request in std::io::stdin().lock().lines() {
        match answer(&request?) {
            Ok(answer) => writeln!(out, "{answer}")?,
            Err(why) => {
                writeln!(out, "unreadable {why}")?;
                end = ExitCode::FAILURE;
            }
        }
    }
    Ok(end)
}
