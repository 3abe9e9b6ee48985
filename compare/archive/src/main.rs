//! `archive COUNT SEED`: holds the static library to rand_distr's own modules, both in this process.
//!
//! Of each kind of call COUNT are made. All that a caller can see is compared: the number returned, every cell of the report and of
//! the output by its word, so that a NaN's own bits count, and the cells around both, which no call may touch; of a constructor
//! every kind and field that it made. Each call is then asked of the crate `ewebasket` too, and has to be told the same. What Beta
//! gives for parameters that document 02's #110 covers has to lie from 0 to 1, and what rests on it between the ends that follow.

mod call;
mod expected;
mod inputs;
mod interval;
mod linked;
mod made;
mod safe;

use call::{Call, Seen, What, TOO_SHORT};
use compare::inputs::{random_calls, Kernel, Random};
use compare::kernels::NAN;
use inputs::Makers;
use interval::{Held, Interval, BOUNDED};
use oracle::inputs::{unusable, Draws, Family, Sampler};
use std::collections::{BTreeMap, BTreeSet};
use std::process::ExitCode;

const LONG: u64 = 65_536;
const LONG_CALLS: u64 = 4;
const SHOWN: u64 = 10;

/// For so many samples of small parameters, and as many fills, a family has to have a subnormal sample.
const CALLS_A_SUBNORMAL: u64 = 20;

/// For so many calls of a kind at the edges a number has to be held to its interval.
const CALLS_A_HELD: u64 = 2;

/// For so many of them a number has to be the least of its interval, and one the greatest.
const CALLS_AN_END: u64 = 20;

const KINDS: [(What, &str); 2] = [(What::Sample, "sample"), (What::Fill, "fill")];

#[derive(Default)]
struct Row {
    asked: u64,
    /// Not refused.
    given: u64,
    /// With a NaN among what was given.
    nan: u64,
    /// Numbers given that are subnormal.
    subnormal: u64,
    held: Held,
    differ: u64,
}

impl Row {
    fn print(&self, kind: &str) {
        let Row {
            asked,
            given,
            nan,
            subnormal,
            differ,
            ..
        } = self;
        println!("{kind:<26} {asked:>9} {given:>9} {nan:>9} {subnormal:>9} {differ:>9}");
    }
}

/// What was compared, by kind of call.
#[derive(Default)]
struct Table {
    rows: BTreeMap<String, Row>,
    all: Row,
    refusals: BTreeSet<usize>,
}

impl Table {
    /// Counts a call that gave these words, or was refused.
    fn count(&mut self, kind: &str, given: Option<&[u64]>, differs: bool) {
        let is_subnormal = |word: &&u64| f64::from_bits(**word).is_subnormal();
        let subnormal = given.unwrap_or_default().iter().filter(is_subnormal);
        let subnormal = subnormal.count() as u64;
        let row = self.rows.entry(kind.to_string()).or_default();
        for row in [row, &mut self.all] {
            row.asked += 1;
            row.given += u64::from(given.is_some());
            row.nan += u64::from(given.is_some_and(|words| words.contains(&NAN)));
            row.subnormal += subnormal;
            row.differ += u64::from(differs);
        }
    }

    /// Whether a call that differs is still shown.
    fn shows(&self) -> bool {
        self.all.differ <= SHOWN
    }

    fn hold(&mut self, kind: &str, call: &Call, random: &mut Random) {
        let expected = expected::expected(call);
        let seen = linked::seen(call, random.word());
        let differs = seen.as_ref() != Some(&expected) || !safe::alike(call, &expected);
        self.count(kind, expected.given(call.what), differs);
        if differs && self.shows() {
            println!("{kind}: {}", shown(call, &expected, &seen));
        }
        self.hold_interval(kind, call, &expected, &seen);
        if !matches!(expected.number, 0 | TOO_SHORT) {
            self.refusals.insert(expected.number);
        }
    }

    /// Holds the numbers that the library gave to their interval, where they have one.
    fn hold_interval(&mut self, kind: &str, call: &Call, expected: &Seen, seen: &Option<Seen>) {
        let given = seen.as_ref().and_then(|seen| seen.given(call.what));
        let (Some(words), Some(interval)) = (given, Interval::of(&call.sampler)) else {
            return;
        };
        if let Some(cell) = interval.first_outside(words) {
            if self.all.held.outside < SHOWN {
                let shown = shown(call, expected, seen);
                println!("{kind}: cell {cell} is outside {interval:?}: {shown}");
            }
        }
        let held = interval.held(words);
        let row = self.rows.entry(kind.to_string()).or_default();
        for row in [row, &mut self.all] {
            row.held += held;
        }
    }

    /// What was held of these families.
    fn held(&self, families: &[Family]) -> Held {
        let mut all = Held::default();
        for (kind, row) in &self.rows {
            let mut names = families.iter().map(|family| inputs::name(*family));
            if names.any(|name| kind.starts_with(name)) {
                all += row.held;
            }
        }
        all
    }

    fn hold_made(&mut self, kind: &str, sampler: &Sampler, lent: &made::Cells, guard: u64) {
        let expected = made::expected(sampler, lent);
        let seen = made::seen(sampler, lent, guard);
        let differs = seen.as_ref() != Some(&expected) || !made::alike(sampler, &expected);
        let given = (expected.number == 0).then_some(&expected.fields[..]);
        self.count(kind, given, differs);
        if differs && self.shows() {
            println!("{kind}: {sampler:x?}\n  Rust: {expected:x?}\n  here: {seen:x?}");
        }
    }

    fn print(&self) {
        let kind = "kind of call";
        println!("{kind:<26}     asked     given    as NaN subnormal    differ");
        for (kind, row) in &self.rows {
            row.print(kind);
        }
        self.all.print("all");
        let refusals: Vec<String> = self.refusals.iter().map(usize::to_string).collect();
        println!("refusals among them: {}", refusals.join(" "));
        for bounded in &BOUNDED {
            bounded.print(self.held(bounded.families));
        }
    }

    /// Whether the small samples of each family reach the subnormals often enough.
    fn reaches_subnormals(&self, count: u64) -> bool {
        let subnormal = |family| {
            let kinds = KINDS.map(|(_, word)| inputs::SMALL.kind(family, word));
            let rows = kinds.iter().filter_map(|kind| self.rows.get(kind));
            rows.map(|row| row.subnormal).sum::<u64>()
        };
        let mut families = inputs::SMALL_FAMILIES.into_iter();
        families.all(|family| subnormal(family) >= count / CALLS_A_SUBNORMAL)
    }

    /// Whether in each kind of call at the edges enough numbers are held to their interval, and enough of them are its ends.
    fn reaches_ends(&self, count: u64) -> bool {
        edge_kinds().iter().all(|kind| {
            let held = self.rows.get(kind).map(|row| row.held).unwrap_or_default();
            held.numbers >= count / CALLS_A_HELD
                && held.least.min(held.greatest) >= count / CALLS_AN_END
        })
    }
}

fn shown(call: &Call, expected: &Seen, seen: &Option<Seen>) -> String {
    if call.out.len() > 64 {
        // A long fill: where it starts to differ is enough.
        let cells = seen.as_ref().map(|seen| &seen.out);
        let first =
            cells.and_then(|cells| cells.iter().zip(&expected.out).position(|(x, y)| x != y));
        return format!(
            "{:?} from {:?}: first cell {first:?}",
            call.sampler, call.draws.at
        );
    }
    format!("{call:x?}\n  Rust: {expected:x?}\n  here: {seen:x?}")
}

/// A single sample into the first of 1 to 5 cells, and a fill of 0 to 5.
fn sample_and_fill(family: Family, makers: &Makers, random: &mut Random, table: &mut Table) {
    for (what, word) in KINDS {
        let sampler = (makers.sampler)(family, random);
        let (cells, samples) = match what {
            What::Sample => (1 + random.below(5), 1),
            What::Fill => {
                let cells = random.below(6);
                (cells, cells)
            }
        };
        let draws = (makers.draws)(&sampler, samples, random);
        let call = inputs::call(sampler, what, &draws, cells, random);
        table.hold(&makers.kind(family, word), &call, random);
    }
}

fn samples_and_fills(count: u64, random: &mut Random, table: &mut Table) {
    for family in Family::OF_NUMBERS {
        for _ in 0..count {
            sample_and_fill(family, &inputs::ANY, random, table);
        }
    }
}

/// The same, of the samplers that exp's smallest answers reach.
fn small_samples_and_fills(count: u64, random: &mut Random, table: &mut Table) {
    for family in inputs::SMALL_FAMILIES {
        for _ in 0..count {
            sample_and_fill(family, &inputs::SMALL, random, table);
        }
    }
}

/// The same, of what rests on Beta, at the edges of what #110 covers.
fn edge_samples_and_fills(count: u64, random: &mut Random, table: &mut Table) {
    for family in inputs::EDGE_FAMILIES {
        for _ in 0..count {
            sample_and_fill(family, &inputs::EDGES, random, table);
        }
    }
}

fn vector_kind(makers: &Makers) -> String {
    format!("{}{}", inputs::name(Family::Dirichlet), makers.size)
}

/// The kinds of call at the edges of what #110 covers.
fn edge_kinds() -> Vec<String> {
    let families = inputs::EDGE_FAMILIES.into_iter();
    let kinds = families.flat_map(|family| KINDS.map(|(_, word)| inputs::EDGES.kind(family, word)));
    kinds.chain([vector_kind(&inputs::EDGES)]).collect()
}

/// Vectors into an output that is mostly as long as alpha.
fn vectors(count: u64, makers: &Makers, random: &mut Random, table: &mut Table) {
    let kind = vector_kind(makers);
    for _ in 0..count {
        let sampler = (makers.sampler)(Family::Dirichlet, random);
        let cells = match random.below(12) {
            0 => random.below(6),
            _ => sampler.components(),
        };
        let draws = (makers.draws)(&sampler, 1, random);
        let call = inputs::call(sampler, What::Fill, &draws, cells, random);
        table.hold(&kind, &call, random);
    }
}

/// What constructors made: of random parameters, and at edges where fields are NaN.
fn mades(count: u64, random: &mut Random, table: &mut Table) {
    for family in made::FAMILIES {
        let name = inputs::name(family);
        for _ in 0..count {
            let sampler = inputs::sampler(family, random);
            let mut lent = made::lent(&sampler, random);
            made::cut(&mut lent, random);
            table.hold_made(&format!("{name} made"), &sampler, &lent, random.word());
        }
        for sampler in made::edges(family) {
            let lent = made::lent(&sampler, random);
            let kind = format!("{name} made, edges");
            table.hold_made(&kind, &sampler, &lent, random.word());
        }
    }
}

/// Reports of fewer than 6 cells, and single samples with no cell to go into.
fn too_short(count: u64, random: &mut Random, table: &mut Table) {
    let functions = |family| [(family, What::Sample), (family, What::Fill)];
    let numbers = Family::OF_NUMBERS.into_iter();
    let mut functions: Vec<_> = numbers.flat_map(functions).collect();
    functions.push((Family::Dirichlet, What::Fill));
    for (family, what) in functions.into_iter().cycle().take(count as usize) {
        let sampler = inputs::sampler(family, random);
        let draws = inputs::draws(&sampler, 1, random);
        let cells = random.below(4);
        let mut call = inputs::call(sampler, what, &draws, cells, random);
        call.report.truncate(random.below(6) as usize);
        table.hold("report too short", &call, random);
        if what == What::Sample {
            let call = inputs::call(call.sampler, what, &draws, 0, random);
            table.hold("sample with no cell", &call, random);
        }
    }
}

/// Fills of 65,536 cells and vectors of 4,096, from one set of draws; of each the last has an unusable draw far on.
fn long_calls(random: &mut Random, table: &mut Table) {
    let mut draws = inputs::long_draws(LONG, random);
    let fills = Family::OF_NUMBERS.map(|family| (family, "fill of 65,536", LONG));
    let vectors = (Family::Dirichlet, "of 4,096", inputs::LONGEST_VECTOR);
    for (family, kind, cells) in fills.into_iter().chain([vectors]) {
        let name = inputs::name(family);
        for turn in 1..=LONG_CALLS {
            let sampler = inputs::plain_sampler(family, random);
            let mut start = || random.below(1000) as usize;
            draws.at = oracle::Positions {
                uniforms: start(),
                normals: start(),
                exponentials: start(),
            };
            let spoilt = (turn == LONG_CALLS).then(|| spoil(&mut draws, cells, random));
            let call = inputs::call(sampler, What::Fill, &draws, cells, random);
            table.hold(&format!("{name} {kind}"), &call, random);
            if let Some((i, kept)) = spoilt {
                put(&mut draws, i, kept);
            }
        }
    }
}

// One draw of each kind, at the same place; answers the place and what was there.
fn spoil(draws: &mut Draws, cells: u64, random: &mut Random) -> (usize, [f64; 3]) {
    let i = random.words(cells / 2, cells - 1) as usize;
    let kept = [draws.uniforms[i], draws.normals[i], draws.exponentials[i]];
    put(draws, i, [unusable(random); 3]);
    (i, kept)
}

fn put(draws: &mut Draws, i: usize, [uniform, normal, exponential]: [f64; 3]) {
    draws.uniforms[i] = uniform;
    draws.normals[i] = normal;
    draws.exponentials[i] = exponential;
}

fn kernels(count: u64, seed: u64, table: &mut Table) {
    for call in random_calls(count as usize, seed) {
        let (x, y) = (f64::from_bits(call.first), f64::from_bits(call.second));
        let (name, answer) = match call.kernel {
            Kernel::Ln => ("ln", ewebasket::ln(x)),
            Kernel::Exp => ("exp", ewebasket::exp(x)),
            Kernel::Powf => ("powf", ewebasket::powf(x, y)),
            Kernel::Sqrt => ("sqrt", ewebasket::sqrt(x)),
        };
        let (expected, seen) = (call.answer(), answer.to_bits());
        table.count(name, Some(&[expected]), seen != expected);
        if seen != expected && table.shows() {
            let (first, second) = (call.first, call.second);
            println!("{name} {first:016x} {second:016x}: {seen:016x}, {expected:016x} in Rust");
        }
    }
}

fn main() -> Result<ExitCode, Box<dyn std::error::Error>> {
    let words: Vec<String> = std::env::args().skip(1).collect();
    let [count, seed] = words.as_slice() else {
        return Err("usage: archive COUNT SEED".into());
    };
    let (count, seed) = (count.parse()?, seed.parse()?);
    let mut random = Random::new(seed);
    let mut table = Table::default();
    samples_and_fills(count, &mut random, &mut table);
    vectors(count, &inputs::ANY, &mut random, &mut table);
    too_short(count, &mut random, &mut table);
    long_calls(&mut random, &mut table);
    mades(count, &mut random, &mut table);
    small_samples_and_fills(count, &mut random, &mut table);
    edge_samples_and_fills(count, &mut random, &mut table);
    vectors(count, &inputs::EDGES, &mut random, &mut table);
    kernels(count, seed, &mut table);
    table.print();
    let reached = table.reaches_subnormals(count);
    if !reached {
        println!("too few subnormal samples: one is asked for in {CALLS_A_SUBNORMAL} samples and as many fills");
    }
    let ends_reached = table.reaches_ends(count);
    if !ends_reached {
        println!("too few numbers held to their interval: of each kind at the edges one is asked for in {CALLS_A_HELD} calls, and each of its ends in {CALLS_AN_END}");
    }
    let faults = table.all.differ + table.all.held.outside;
    Ok(match reached && ends_reached && faults == 0 {
        true => ExitCode::SUCCESS,
        false => ExitCode::FAILURE,
    })
}
