//! The fields of a sampler in the words of a request or of an answer: a kind, then its numbers.

use crate::number::K;
use rand_distr::{BetaFields, GammaFields};

/// Numbers as 16 hex digits each; `word` says which of a NaN's words is written.
pub fn numbers(numbers: &[K], word: fn(K) -> u64) -> String {
    let words: Vec<String> = numbers
        .iter()
        .map(|x| format!("{:016x}", word(*x)))
        .collect();
    words.join(" ")
}

/// A kind of Gamma, and how many numbers it keeps.
pub const GAMMA_KINDS: [(&str, usize); 3] = [("one", 1), ("small", 4), ("large", 3)];

/// A kind of Beta, and how many numbers it keeps.
pub const BETA_KINDS: [(&str, usize); 2] = [("bb", 5), ("bc", 6)];

pub fn gamma_parts(fields: GammaFields<K>) -> (&'static str, Vec<K>) {
    match fields {
        GammaFields::One { inverse_rate } => ("one", vec![inverse_rate]),
        GammaFields::Small {
            inv_shape,
            scale,
            c,
            d,
        } => ("small", vec![inv_shape, scale, c, d]),
        GammaFields::Large { scale, c, d } => ("large", vec![scale, c, d]),
    }
}

/// None for no kind, or for one that keeps another count of numbers.
pub fn gamma_of(kind: &str, kept: &[K]) -> Option<GammaFields<K>> {
    match (kind, kept) {
        ("one", &[inverse_rate]) => Some(GammaFields::One { inverse_rate }),
        ("small", &[inv_shape, scale, c, d]) => Some(GammaFields::Small {
            inv_shape,
            scale,
            c,
            d,
        }),
        ("large", &[scale, c, d]) => Some(GammaFields::Large { scale, c, d }),
        _ => None,
    }
}

pub fn gamma_words(fields: GammaFields<K>, word: fn(K) -> u64) -> String {
    let (kind, kept) = gamma_parts(fields);
    format!("{kind} {}", numbers(&kept, word))
}

pub fn beta_parts(fields: BetaFields<K>) -> (&'static str, bool, Vec<K>) {
    match fields {
        BetaFields::Bb {
            switched,
            a,
            b,
            alpha,
            beta,
            gamma,
        } => ("bb", switched, vec![a, b, alpha, beta, gamma]),
        BetaFields::Bc {
            switched,
            a,
            b,
            alpha,
            beta,
            kappa1,
            kappa2,
        } => ("bc", switched, vec![a, b, alpha, beta, kappa1, kappa2]),
    }
}

/// None for no kind, or for one that keeps another count of numbers.
pub fn beta_of(kind: &str, switched: bool, kept: &[K]) -> Option<BetaFields<K>> {
    match (kind, kept) {
        ("bb", &[a, b, alpha, beta, gamma]) => Some(BetaFields::Bb {
            switched,
            a,
            b,
            alpha,
            beta,
            gamma,
        }),
        ("bc", &[a, b, alpha, beta, kappa1, kappa2]) => Some(BetaFields::Bc {
            switched,
            a,
            b,
            alpha,
            beta,
            kappa1,
            kappa2,
        }),
        _ => None,
    }
}

pub fn beta_words(fields: BetaFields<K>, word: fn(K) -> u64) -> String {
    let (kind, switched, kept) = beta_parts(fields);
    format!("{kind} {} {}", u8::from(switched), numbers(&kept, word))
}
