//! Ribbons: lines that run side by side through a rectangle. No two of them cross there, so they needn't go into its halves: which
//! of them another line crosses, and which of them meet a pixel, is found by halving their list.
use crate::bins::Rect;
use crate::crossing::{cross, meets};
use crate::point::{Point, Segment};
use std::cmp::Ordering::{self, Greater, Less};
use std::ops::Range;

/// More than twice the error of a height as a float.
const NEAR: f64 = 1e-6;

/// The whole columns of a rectangle; its rows where x and y are exchanged.
#[derive(Clone, Copy)]
pub struct Course {
    first: i64,
    last: i64,
    exchanged: bool,
}

/// The lines that come into a rectangle: those of a ribbon in their order, with their heights where they come in, and the others.
#[derive(Default)]
pub struct Parted {
    pub ribbon: Vec<(f64, u32)>,
    pub rest: Vec<u32>,
}

impl Course {
    pub fn both(rect: &Rect) -> [Course; 2] {
        let columns = Course { first: rect.left as i64, last: rect.right as i64, exchanged: false };
        [columns, Course { first: rect.bottom as i64, last: rect.top as i64, exchanged: true }]
    }

    /// The borders, doubled.
    fn entry(&self) -> i64 {
        2 * self.first - 1
    }

    fn exit(&self) -> i64 {
        2 * self.last + 1
    }

    /// The ends of a line as the course has them, the lesser one first.
    #[inline(always)]
    fn ends(&self, s: &Segment) -> [i64; 4] {
        let [px, py, qx, qy] = [s.px as i64, s.py as i64, s.qx as i64, s.qy as i64];
        match (self.exchanged, py <= qy) {
            (false, _) => [px, py, qx, qy],
            (true, true) => [py, px, qy, qx],
            (true, false) => [qy, qx, py, px],
        }
    }

    /// Whether a line comes from before the course and goes on behind it.
    #[inline(always)]
    fn is_run_through(&self, s: &Segment) -> bool {
        let [px, _, qx, _] = self.ends(s);
        px < self.first && self.last < qx
    }

    /// Twice a line's height at a border, nearly.
    #[inline(always)]
    fn near(&self, s: &Segment, border: i64) -> f64 {
        let [px, py, qx, qy] = self.ends(s);
        2.0 * py as f64 + (qy - py) as f64 * (border - 2 * px) as f64 / (qx - px) as f64
    }

    /// The same as a fraction.
    fn exact(&self, s: &Segment, border: i64) -> (i64, i64) {
        let [px, py, qx, qy] = self.ends(s);
        (2 * (py * qx - px * qy) + (qy - py) * border, qx - px)
    }

    /// The order of two lines at a border, by heights that are known nearly or else by exact ones.
    #[inline(always)]
    fn compared(&self, border: i64, (s_near, s): (f64, &Segment), (t_near, t): (f64, &Segment)) -> Ordering {
        if (s_near - t_near).abs() > NEAR {
            return s_near.total_cmp(&t_near);
        }
        let ((s_high, s_run), (t_high, t_run)) = (self.exact(s, border), self.exact(t, border));
        (s_high as i128 * t_run as i128).cmp(&(t_high as i128 * s_run as i128))
    }

    fn at(&self, border: i64, s: &Segment, t: &Segment) -> Ordering {
        self.compared(border, (self.near(s, border), s), (self.near(t, border), t))
    }

    /// Whether more than half of the lines make a ribbon; they are then parted.
    pub fn part(&self, lines: &[Segment], numbers: &[u32], parted: &mut Parted) -> bool {
        let is_through = |number: &&u32| self.is_run_through(&lines[**number as usize]);
        if 2 * numbers.iter().filter(is_through).count() <= numbers.len() {
            return false;
        }
        parted.ribbon.clear();
        parted.rest.clear();
        parted.rest.extend(numbers.iter().filter(|number| !is_through(number)));
        parted.ribbon.extend(numbers.iter().filter(is_through).map(|&number| (self.near(&lines[number as usize], self.entry()), number)));
        self.straighten(lines, parted);
        2 * parted.ribbon.len() > numbers.len()
    }

    /// Sorts lines by their heights, and takes out those that change places with their neighbours, both of a pair.
    fn straighten(&self, lines: &[Segment], Parted { ribbon, rest }: &mut Parted) {
        let line = |number: u32| &lines[number as usize];
        ribbon.sort_unstable_by(|s, t| self.compared(self.entry(), (s.0, line(s.1)), (t.0, line(t.1))));
        let is_above = |s: (f64, u32), t: (f64, u32)| {
            self.compared(self.entry(), (s.0, line(s.1)), (t.0, line(t.1))).is_gt() && self.at(self.exit(), line(s.1), line(t.1)).is_gt()
        };
        let mut kept = 0;
        for place in 0..ribbon.len() {
            if kept == 0 || is_above(ribbon[place], ribbon[kept - 1]) {
                ribbon[kept] = ribbon[place];
                kept += 1;
            } else {
                kept -= 1;
                rest.extend([ribbon[kept].1, ribbon[place].1]);
            }
        }
        ribbon.truncate(kept);
    }

    /// How a point stands to a line that runs through.
    #[inline(always)]
    fn point_to(&self, x: i64, y: i64, line: &Segment) -> Ordering {
        let [px, py, qx, qy] = self.ends(line);
        ((qx - px) * (y - py)).cmp(&((qy - py) * (x - px)))
    }

    /// Whether a line that comes into the course stands so to one that runs through, at its first and at its last point there.
    fn stands(&self, order: Ordering, s: &Segment, line: &Segment) -> bool {
        let [px, py, qx, qy] = self.ends(s);
        let first = if px < self.first { self.at(self.entry(), s, line) } else { self.point_to(px, py, line) };
        first == order && order == if self.last < qx { self.at(self.exit(), s, line) } else { self.point_to(qx, qy, line) }
    }

    /// Tells the pixels in which a line crosses those of a ribbon, one after the other along it.
    pub fn cross_ribbon(&self, lines: &[Segment], ribbon: &[u32], s: &Segment, mut tell: impl FnMut(i32, i32)) {
        let line = |number: u32| &lines[number as usize];
        let crossed = &ribbon[ribbon.partition_point(|&number| self.stands(Greater, s, line(number)))..];
        let mut left = &crossed[..crossed.partition_point(|&number| !self.stands(Less, s, line(number)))];
        while let Some(&number) = left.first() {
            let found = cross(s, line(number));
            if let Some((x, y)) = found {
                tell(x, y);
            }
            left = &left[left.partition_point(|&number| cross(s, line(number)) == found)..];
        }
    }

    /// The places in a ribbon of the lines that meet a pixel of the course.
    pub fn meeting(&self, lines: &[Segment], ribbon: &[u32], pixel: Point) -> Range<usize> {
        let (x, y) = (pixel.x(), pixel.y());
        let (along, up) = if self.exchanged { (y as i64, x as i64) } else { (x as i64, y as i64) };
        let is_met = |number: u32| meets(&lines[number as usize], x, y);
        let first = ribbon.partition_point(|&number| self.point_to(along, up, &lines[number as usize]).is_gt() && !is_met(number));
        first..first + ribbon[first..].iter().take_while(|&&number| is_met(number)).count()
    }
}
