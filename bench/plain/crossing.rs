//! One segment and a pixel, and the pixel of two segments' common point.
use crate::point::Segment;

/// Whether the segment has a point in the pixel, which is open on its right and upper side.
#[inline(always)]
pub fn meets(s: &Segment, x: i32, y: i32) -> bool {
    let (low, high) = s.rows();
    if x < s.px || x > s.qx || y < low || y > high {
        return false;
    }
    let (dx, dy) = (s.run(), s.rise());
    let away = 2 * (dx * (y - s.py) as i64 - dy * (x - s.px) as i64);
    let size = dx + dy.abs();
    if away == size {
        return dx > 0 && dy < 0;
    }
    -size < away && away < size
}

/// `m d / n`, rounded to the nearest whole number, halves up, for `0 <= m <= n`: guessed by floating point, then put right.
#[inline(always)]
fn rounded(m: i64, n: i64, d: i64) -> i64 {
    let mut quotient = ((m as f64) * (d as f64) / (n as f64) + 0.5).floor() as i64;
    let twice = 2 * n as i128;
    let mut rest = 2 * m as i128 * d as i128 + n as i128 - twice * quotient as i128;
    while rest < 0 {
        quotient -= 1;
        rest += twice;
    }
    while rest >= twice {
        quotient += 1;
        rest -= twice;
    }
    quotient
}

/// The pixel of the common point of two segments that aren't parallel.
#[inline(always)]
pub fn cross(s: &Segment, t: &Segment) -> Option<(i32, i32)> {
    let (dx, dy, ex, ey) = (s.run(), s.rise(), t.run(), t.rise());
    let (fx, fy) = ((t.px - s.px) as i64, (t.py - s.py) as i64);
    let (mut n, mut m, mut k) = (dx * ey - dy * ex, fx * ey - fy * ex, fx * dy - fy * dx);
    if n == 0 {
        return None;
    }
    if n < 0 {
        (n, m, k) = (-n, -m, -k);
    }
    if m < 0 || m > n || k < 0 || k > n {
        return None;
    }
    Some((s.px + rounded(m, n, dx) as i32, s.py + rounded(m, n, dy) as i32))
}

/// Whether two segments have no common point but perhaps a common end, seen by boxes and ends alone.
#[inline(always)]
pub fn are_apart(s: &Segment, t: &Segment) -> bool {
    let ((s_low, s_high), (t_low, t_high)) = (s.rows(), t.rows());
    t.px > s.qx
        || t.qx < s.px
        || t_low > s_high
        || t_high < s_low
        || (t.qx == s.px && t.qy == s.py)
        || (s.qx == t.px && s.qy == t.py)
        || (s.px == t.px && s.py == t.py)
        || (s.qx == t.qx && s.qy == t.qy)
}
