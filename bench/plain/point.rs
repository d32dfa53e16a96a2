//! Points as one number, segments, and the turn of three points.

/// Above the greatest coordinate, so that a shifted one isn't negative.
const SHIFT: i32 = 1 << 29;

/// A grid point; the order of the numbers is by column, then by row.
#[derive(Clone, Copy, PartialEq, Eq, PartialOrd, Ord, Hash, Default)]
pub struct Point(pub u64);

impl Point {
    /// Past every point.
    pub const LAST: Point = Point(u64::MAX);

    #[inline(always)]
    pub fn new(x: i32, y: i32) -> Point {
        Point((((x + SHIFT) as u64) << 32) | ((y + SHIFT) as u64))
    }

    /// Before every point of this column.
    pub fn before_column(x: i32) -> Point {
        Point::new(x, -SHIFT)
    }

    #[inline(always)]
    pub fn x(self) -> i32 {
        ((self.0 >> 32) as i32) - SHIFT
    }

    #[inline(always)]
    pub fn y(self) -> i32 {
        (self.0 as u32 as i32) - SHIFT
    }

    /// The run and the rise to another point.
    #[inline(always)]
    pub fn to(self, other: Point) -> (i64, i64) {
        ((other.x() - self.x()) as i64, (other.y() - self.y()) as i64)
    }

    /// Columns and rows together to a point that isn't left of this one.
    #[inline(always)]
    pub fn steps_to(self, other: Point) -> u32 {
        (other.x() - self.x()) as u32 + (other.y() - self.y()).unsigned_abs()
    }
}

/// A segment from its lesser end to its greater one, and whose it is: the number of a layer, 0 or 1, or that of a feature.
#[derive(Clone, Copy)]
pub struct Segment {
    pub px: i32,
    pub py: i32,
    pub qx: i32,
    pub qy: i32,
    pub owner: u32,
}

impl Segment {
    #[inline(always)]
    pub fn first(&self) -> Point {
        Point::new(self.px, self.py)
    }

    #[inline(always)]
    pub fn last(&self) -> Point {
        Point::new(self.qx, self.qy)
    }

    #[inline(always)]
    pub fn run(&self) -> i64 {
        (self.qx - self.px) as i64
    }

    #[inline(always)]
    pub fn rise(&self) -> i64 {
        (self.qy - self.py) as i64
    }

    #[inline(always)]
    pub fn rows(&self) -> (i32, i32) {
        if self.py < self.qy {
            (self.py, self.qy)
        } else {
            (self.qy, self.py)
        }
    }
}

/// Above 0 where `v` lies left of `p` to `q`, below 0 where it lies right.
#[inline(always)]
pub fn turn(p: Point, q: Point, v: Point) -> i64 {
    let (px, py) = (p.x() as i64, p.y() as i64);
    (q.x() as i64 - px) * (v.y() as i64 - py) - (q.y() as i64 - py) * (v.x() as i64 - px)
}
