//! sqrt by whole numbers, in the steps of the proved one: what its steps cost in plain Rust. The comparison's sqrt is the instruction.

/// The square root, rounded as IEEE 754 asks.
pub fn sqrt(x: f64) -> f64 {
    if x.is_nan() || x < 0.0 {
        return f64::from_bits(crate::kernels::NAN);
    }
    if x == 0.0 || x == f64::INFINITY {
        return x;
    }
    let (digits, places) = split(x.to_bits());
    let place = places / 2 + 479;
    let root = rounded(digits << (places % 2));
    f64::from_bits((place << 52) + root)
}

// 53 binary digits, and how far above 2^-1138 the last of them stands.
fn split(word: u64) -> (u64, u64) {
    let one = 1 << 52;
    if word < one {
        let shift = word.leading_zeros() - 11;
        (word << shift, 64 - u64::from(shift))
    } else {
        (word % one + one, word / one + 63)
    }
}

// The whole number nearest to the root of m·2^52.
fn rounded(m: u64) -> u64 {
    let e = start(m >> 44);
    let a = refined([e, (m >> 28) - e * e], m >> 27 & 1, m >> 26 & 1, 2);
    let b = refined(a, m >> 13 & 8191, m & 8191, 8192);
    let [root, rest] = refined(b, 0, 0, 1 << 26);
    root + u64::from(root < rest)
}

// The root of 65,536·i, rounded down, for i from 256 to 1,023.
fn start(i: u64) -> u64 {
    START[i as usize - 256].into()
}

static START: [u16; 768] = starts();

// Each entry from the one before: e goes up while the next square is still at most 65,536·i.
const fn starts() -> [u16; 768] {
    let mut table = [0; 768];
    let mut e = 4096;
    let mut i = 256;
    while i < 1024 {
        while (e + 1) * (e + 1) <= i << 16 {
            e += 1;
        }
        table[i - 256] = e as u16;
        i += 1;
    }
    table
}

// From a root and what is left to those of the number with two more digits in base b.
fn refined([s, d]: [u64; 2], hi: u64, lo: u64, b: u64) -> [u64; 2] {
    let t = d * b + hi;
    let q = t / (s * 2);
    let v = t % (s * 2) * b + lo;
    let r = s * b + q;
    if q * q <= v {
        [r, v - q * q]
    } else {
        [r - 1, v + r * 2 - 1 - q * q]
    }
}

#[cfg(test)]
mod tests {
    use super::{rounded, split, sqrt};
    use crate::inputs::Random;

    fn is_the_instruction(x: f64) {
        assert_eq!(sqrt(x).to_bits(), x.sqrt().to_bits(), "{x:e}");
    }

    #[test]
    fn it_is_the_instruction() {
        let mut random = Random::new(3);
        (0..10_000).for_each(|k| is_the_instruction(f64::from_bits(k * k * k)));
        (0..200_000).for_each(|_| is_the_instruction(f64::from_bits(random.positive())));
        assert_eq!(sqrt(-0.0).to_bits(), (-0.0f64).to_bits());
        assert!(sqrt(-1.0).is_nan() && sqrt(f64::NAN).is_nan());
        assert_eq!(sqrt(f64::INFINITY), f64::INFINITY);
    }

    // The m whose root sqrt seeks at this word.
    fn sought(word: u64) -> u64 {
        let (digits, places) = split(word);
        digits << (places % 2)
    }

    // The word at which m is sought, with an odd exponent: an m of 54 digits is even, and its word has one exponent more.
    fn word_of(m: u64, exponent: u64) -> u64 {
        let word = if m < 1 << 53 {
            ((exponent - 1) << 52) + m
        } else {
            (exponent << 52) + m / 2
        };
        assert_eq!(sought(word), m);
        word
    }

    // The first and last m of entry i that sqrt can seek, and those next to them, among the least numbers, about 1 and among the largest.
    fn normals(i: u64) -> Vec<u64> {
        let step = if i < 512 { 1 } else { 2 };
        let (first, last) = (i << 44, ((i + 1) << 44) - step);
        let ends = [first, first + step, last - step, last];
        let words = [1, 1023, 2045].map(|exponent| ends.map(|m| word_of(m, exponent)));
        words.concat()
    }

    // The first and last subnormal of entry i, with as few digits as i has, with some more and with the most.
    fn subnormals(i: u64) -> Vec<u64> {
        let ends = [0, 22, 42].map(|k| [i << k, ((i + 1) << k) - 1]);
        ends.concat()
    }

    #[test]
    fn it_is_the_instruction_at_both_ends_of_every_entry() {
        let mut tried = 0;
        for i in 256..1024 {
            for word in [normals(i), subnormals(i)].concat() {
                assert_eq!(sought(word) >> 44, i);
                is_the_instruction(f64::from_bits(word));
                tried += 1;
            }
        }
        assert_eq!(tried, 13_824);
    }

    // The nearest r to the root of m·2^52: m·2^52 is above (r - 1/2) squared and below (r + 1/2) squared.
    fn is_nearest(r: u64, m: u64) -> bool {
        let (r, n) = (u128::from(r), u128::from(m) << 52);
        r * r < n + r && n <= r * r + r
    }

    // 2^54 - 1 is odd, so that sqrt never seeks it, and its root has 54 digits.
    #[test]
    fn the_ends_of_the_range() {
        assert_eq!(rounded(1 << 52), 1 << 52);
        assert_eq!(rounded((1 << 54) - 2), (1 << 53) - 1);
        assert_eq!(rounded((1 << 54) - 1), 1 << 53);
    }

    #[test]
    fn the_stored_roots_are_the_nearest() {
        let stored = include_str!("../../crates/test_kernels_edges/stdout");
        let rows: Vec<&str> = stored
            .lines()
            .filter_map(|row| row.strip_prefix("root "))
            .collect();
        assert_eq!(rows.len(), 12);
        for row in rows {
            let words: Vec<u64> = row
                .split(" -> ")
                .map(|w| u64::from_str_radix(w, 16).unwrap())
                .collect();
            let [m, r] = words[..] else { panic!("{row}") };
            if m >> 52 == 0 || m >> 54 > 0 {
                assert_eq!(r, 0, "{row}");
            } else {
                assert!(is_nearest(r, m) && r == rounded(m), "{row}");
            }
        }
    }
}
