//! The distance between two floats.

/// The floats between two, counted with one end: words of one sign are ordered as their floats, so a negative one counts
/// down from 0. Two NaN are at the same place, and one alone as far as can be.
///
/// ```
/// use compare::distance::ulps;
/// assert_eq!(ulps(1.0, f64::from_bits(1.0f64.to_bits() + 3)), 3);
/// assert_eq!(ulps(f64::from_bits(1), -f64::from_bits(1)), 2);
/// assert_eq!(ulps(0.0, -0.0), 0);
/// assert_eq!(ulps(f64::NAN, 1.0), u64::MAX);
/// ```
pub fn ulps(a: f64, b: f64) -> u64 {
    if a.is_nan() || b.is_nan() {
        let both = a.is_nan() && b.is_nan();
        return if both { 0 } else { u64::MAX };
    }
    let place = |x: f64| {
        let size = (x.to_bits() & !(1 << 63)) as i64;
        if x.is_sign_negative() {
            -size
        } else {
            size
        }
    };
    place(a).abs_diff(place(b))
}
