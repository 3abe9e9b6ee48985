//! ln, exp, powf and sqrt as document 01's section Kernels has them: each operation rounds once, in the order written.

// The constants by their bits, as the document gives them.
const HI: u64 = 0x3fe6_2e42_fee0_0000;
const LO: u64 = 0x3dea_39ef_3579_3c76;
const INV: u64 = 0x3ff7_1547_652b_82fe;
const ROOT: u64 = 0x3ff6_a09e_667f_3bcd;

/// The one NaN that is handed out.
pub const NAN: u64 = 0x7ff8_0000_0000_0000;

const FRACTION: u64 = (1 << 52) - 1;

/// A NaN's sign and payload say nothing, so that only one NaN is handed out.
pub fn one_nan(x: f64) -> f64 {
    if x.is_nan() {
        f64::from_bits(NAN)
    } else {
        x
    }
}

// C_k is 1/(2k+1) rounded.
fn c(k: u64) -> f64 {
    1.0 / (2 * k + 1) as f64
}

// D_j is 1/j! rounded; 13! is below 2^53, so the factorial itself is exact.
fn d(j: u64) -> f64 {
    1.0 / (1..=j).product::<u64>() as f64
}

// x = m·2^e with 1 <= m < 2, for a finite x above 0. A subnormal has no leading 1 of its own, so its significand moves up
// by as many places as it has leading zeros.
fn parts(x: f64) -> (f64, i64) {
    let word = x.to_bits();
    let one = 1.0f64.to_bits();
    if word > FRACTION {
        let e = (word >> 52) as i64 - 1023;
        (f64::from_bits(word & FRACTION | one), e)
    } else {
        let places = word.leading_zeros() - 11;
        let m = f64::from_bits((word << places) & FRACTION | one);
        (m, -1022 - i64::from(places))
    }
}

pub fn ln(x: f64) -> f64 {
    if x.is_nan() || x < 0.0 {
        return f64::from_bits(NAN);
    }
    if x == 0.0 {
        return f64::NEG_INFINITY;
    }
    if x == f64::INFINITY {
        return x;
    }
    let (mut m, mut e) = parts(x);
    if m > f64::from_bits(ROOT) {
        m /= 2.0;
        e += 1;
    }
    let e = e as f64;
    let s = (m - 1.0) / (m + 1.0);
    let q = s * s;
    let mut p = c(10);
    for k in (1..=9).rev() {
        p = c(k) + q * p;
    }
    let t = s + s * (q * p);
    e * f64::from_bits(HI) + (2.0 * t + e * f64::from_bits(LO))
}

// 2^n, for an n of a normal number.
fn power(n: i64) -> f64 {
    f64::from_bits(((n + 1023) as u64) << 52)
}

pub fn exp(x: f64) -> f64 {
    if x.is_nan() {
        return f64::from_bits(NAN);
    }
    if x >= 710.0 {
        return f64::INFINITY;
    }
    if x <= -746.0 {
        return 0.0;
    }
    let y = x * f64::from_bits(INV);
    let moved = if y >= 0.0 { y + 0.5 } else { y - 0.5 };
    // `as` cuts toward zero.
    let k = moved as i64;
    let n = k as f64;
    let r = (x - n * f64::from_bits(HI)) - n * f64::from_bits(LO);
    let mut p = d(13);
    for j in (0..=12).rev() {
        p = d(j) + r * p;
    }
    let h = k.div_euclid(2);
    (p * power(h)) * power(k - h)
}

pub fn powf(u: f64, y: f64) -> f64 {
    exp(y * ln(u))
}

/// The platform's instruction rounds as IEEE 754 asks; `distance` tries that by squares of whole numbers.
pub fn sqrt(x: f64) -> f64 {
    if cfg!(feature = "whole-root") {
        return crate::root::sqrt(x);
    }
    // The compiler holds one NaN for as good as another, and drops the test after its own root unless it can't see that.
    one_nan(std::hint::black_box(x.sqrt()))
}
