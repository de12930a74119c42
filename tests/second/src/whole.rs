//! Whole numbers: the rounded quotient, the cut, and the turn of three places.

/// n/d for d > 0: 'Each quotient is rounded to the nearest whole number', and by document 02 'a half must
/// go away from zero'. `/` leaves off what is over the whole part, and `%` is that with the sign of n: where
/// it is half of d or more, the quotient is one further from zero.
pub fn rounded(n: i128, d: i128) -> i128 {
    assert!(d > 0, "the divisor is positive");
    let (whole, over) = (n / d, n % d);
    if 2 * over.abs() < d {
        whole
    } else {
        whole + n.signum()
    }
}

/// 'cut to within ±' the bound.
pub fn cut(v: i128, bound: i128) -> i128 {
    if v > bound {
        bound
    } else if v < -bound {
        -bound
    } else {
        v
    }
}

/// Twice the signed area of the triangle a, b, c. It is positive if the three go counterclockwise, x to the
/// right and y upward; negative if c lies to the right of the side from a to b; zero if the three lie on
/// one line.
pub fn turn(ax: i64, ay: i64, bx: i64, by: i64, cx: i64, cy: i64) -> i64 {
    (bx - ax) * (cy - ay) - (by - ay) * (cx - ax)
}
