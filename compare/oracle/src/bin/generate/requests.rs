//! Requests for `ask`, of every kind in turn.

use crate::samplers::{made, raw, RAW};
use compare::inputs::Random;
use oracle::inputs::{number, Draws, Family, Sampler};
use oracle::{bits, K};

// A number of any size as every cell; a NaN is the one that answers have.
fn cell(random: &mut Random) -> String {
    format!("{:016x}", bits(K(number(random))))
}

// Where most vectors would be refused by their length, equal elements and draws.
fn long_dirichlet(random: &mut Random) -> String {
    let n = 4090 + random.below(10) as usize;
    let draws = Draws {
        uniforms: Vec::new(),
        normals: Vec::new(),
        exponentials: vec![random.unit(); n - random.below(2) as usize],
        at: Default::default(),
    };
    vector(&Sampler::Dirichlet(vec![1.0; n]), &draws, n as u64, random)
}

fn dirichlet(random: &mut Random) -> String {
    if random.below(25) == 0 {
        return long_dirichlet(random);
    }
    let sampler = Sampler::random(Family::Dirichlet, random);
    let draws = sampler.draws(1, random);
    let cells = match random.below(12) {
        0 => random.below(6),
        _ => sampler.components(),
    };
    vector(&sampler, &draws, cells, random)
}

fn vector(sampler: &Sampler, draws: &Draws, cells: u64, random: &mut Random) -> String {
    let (name, cell) = (sampler.family().word(), cell(random));
    format!(
        "{name} {} {} {cells} {cell}",
        sampler.words(),
        draws.words()
    )
}

pub fn request(turn: u64, random: &mut Random) -> String {
    let (by_parameters, raws) = (Family::OF_NUMBERS.len(), RAW.len());
    let kinds = by_parameters + raws + 1;
    let kind = turn as usize % kinds;
    let sampler = if kind < by_parameters {
        made(Family::OF_NUMBERS[kind], random)
    } else if kind < by_parameters + raws {
        raw(RAW[kind - by_parameters], random)
    } else {
        return dirichlet(random);
    };
    let (name, words) = (sampler.name, sampler.words);
    let draws = |samples, random: &mut Random| {
        Draws::asked(sampler.family.enough(samples), sampler.aim, random).words()
    };
    match turn / kinds as u64 % 5 {
        0 | 1 => format!("{name} {words} {}", draws(1, random)),
        2 | 3 => {
            let count = random.below(6);
            let draws = draws(count, random);
            format!("{name}-fill {words} {draws} {count} {}", cell(random))
        }
        _ => format!("{name}-fields {words}"),
    }
}
