//! Draws: mostly usable and enough, now and then not.

use super::{doubtful, near, special, Aim};
use crate::{list, Lent, Positions};
use compare::inputs::Random;
use compare::kernels::ln;

/// Twelve uniforms less six: near enough to a normal to be accepted as often.
pub fn normal(random: &mut Random) -> f64 {
    (0..12).map(|_| random.unit()).sum::<f64>() - 6.0
}

/// The kernels' logarithm: the platform's differs between machines.
pub fn exponential(random: &mut Random) -> f64 {
    -ln(random.unit())
}

fn uniform_input(random: &mut Random) -> f64 {
    match random.below(64) {
        0 => special(random),
        1 => near(0.5, random),
        2 => f64::from_bits(random.words(1, 0x3fef_ffff_ffff_ffff)),
        _ => random.unit(),
    }
}

fn normal_input(random: &mut Random) -> f64 {
    match random.below(48) {
        0 => special(random),
        1 => random.between(-40.0, 40.0),
        _ => normal(random),
    }
}

fn exponential_input(random: &mut Random) -> f64 {
    match random.below(24) {
        0 => special(random),
        _ => exponential(random),
    }
}

/// Now and then a list is another one: a draw of it doubtful or of any bits, fewer draws or none, all equal, 0 or of any bits.
pub fn bend(list: &mut Vec<f64>, random: &mut Random) {
    let any = random.below(list.len() as u64 + 1) as usize;
    match random.below(24) {
        0 | 1 => put(list, any, doubtful(random)),
        2 => put(list, any, f64::from_bits(random.word())),
        3 => list.truncate(any),
        4 => list.clear(),
        5 => {
            let x = list.first().copied();
            list.fill(x.unwrap_or_default());
        }
        6 => list.fill(0.0),
        7 => list.fill_with(|| f64::from_bits(random.word())),
        _ => (),
    }
}

fn put(list: &mut [f64], i: usize, x: f64) {
    if let Some(draw) = list.get_mut(i) {
        *draw = x;
    }
}

#[derive(Clone, Debug)]
pub struct Draws {
    pub uniforms: Vec<f64>,
    pub normals: Vec<f64>,
    pub exponentials: Vec<f64>,
    pub at: Positions,
}

impl Draws {
    pub fn lent(&self) -> Lent<'_> {
        Lent {
            uniforms: &self.uniforms,
            normals: &self.normals,
            exponentials: &self.exponentials,
        }
    }

    /// Mostly `most` draws of each kind, now and then too few, and a position above their end only then.
    pub fn random(random: &mut Random, most: [u64; 3]) -> Self {
        let [u, n, e] = most.map(|most| match random.below(6) {
            0 => random.below(most),
            _ => most,
        });
        let mut start = || random.below(3) as usize;
        let at = Positions {
            uniforms: start(),
            normals: start(),
            exponentials: start(),
        };
        Draws {
            uniforms: (0..u).map(|_| uniform_input(random)).collect(),
            normals: (0..n).map(|_| normal_input(random)).collect(),
            exponentials: (0..e).map(|_| exponential_input(random)).collect(),
            at,
        }
    }

    pub fn above(&self) -> bool {
        self.at.uniforms > self.uniforms.len()
            || self.at.normals > self.normals.len()
            || self.at.exponentials > self.exponentials.len()
    }

    /// Draws for a call: mostly `most` of each kind, from positions up to their end, mostly aimed, now and then bent.
    pub fn asked(most: [u64; 3], aim: Aim, random: &mut Random) -> Self {
        let mut draws = Draws::random(random, most);
        let at = &mut draws.at;
        at.uniforms = at.uniforms.min(draws.uniforms.len());
        at.normals = at.normals.min(draws.normals.len());
        at.exponentials = at.exponentials.min(draws.exponentials.len());
        aim.put_mostly(&mut draws, random);
        draws.bend(random);
        draws
    }

    // Now and then a list or a position is another one: of each kind alike.
    fn bend(&mut self, random: &mut Random) {
        let (list, at) = match random.below(3) {
            0 => (&mut self.uniforms, &mut self.at.uniforms),
            1 => (&mut self.normals, &mut self.at.normals),
            _ => (&mut self.exponentials, &mut self.at.exponentials),
        };
        bend(list, random);
        match random.below(24) {
            0 => *at = random.below(list.len() as u64 + 1) as usize,
            1 => *at = list.len(),
            2 => *at = list.len() + 1 + random.below(3) as usize,
            _ => (),
        }
    }

    /// Three lists and three positions, in the words of a request; a NaN by its own bits.
    pub fn words(&self) -> String {
        let list = |draws: &[f64]| {
            let words: Vec<u64> = draws.iter().map(|x| x.to_bits()).collect();
            list(&words)
        };
        let at = self.at;
        format!(
            "{} {} {} {} {} {}",
            list(&self.uniforms),
            list(&self.normals),
            list(&self.exponentials),
            at.uniforms,
            at.normals,
            at.exponentials
        )
    }
}
