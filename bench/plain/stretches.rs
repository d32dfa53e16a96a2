//! Stretches: the segments of one carrier (the line through all of them) that overlap or touch, taken together. A stretch is
//! crossed where its segments are, so pixels are looked for by stretches; and each segment meets those hot pixels of its stretch
//! that stand between its own ends.
use crate::bins::Rect;
use crate::point::{Point, Segment};
use crate::tiles::Record;
use std::cmp::Ordering;

/// A segment with what orders it by its carrier.
#[derive(Clone, Copy)]
struct Carried {
    /// A whole number that ascends with the slope as it is rounded.
    slope: i64,
    p: Point,
    q: Point,
    segment: u32,
}

impl Carried {
    fn new(s: &Segment, segment: u32) -> Carried {
        let bits = (s.rise() as f64 / s.run() as f64).to_bits() as i64;
        let slope = bits ^ (((bits >> 63) as u64) >> 1) as i64;
        Carried { slope, p: Point::new(s.px, s.py), q: Point::new(s.qx, s.qy), segment }
    }

    /// The order of the carriers: by their slopes, then by their sides.
    #[inline(always)]
    fn by_carrier(&self, other: &Carried) -> Ordering {
        self.slope.cmp(&other.slope).then_with(|| {
            let ((dx, dy), (ex, ey)) = (self.p.to(self.q), other.p.to(other.q));
            let (fx, fy) = self.p.to(other.p);
            (dy * ex).cmp(&(ey * dx)).then_with(|| (dy * fx).cmp(&(dx * fy)))
        })
    }
}

/// A hot pixel of a stretch: the stretch, the steps from its first end, the pixel.
type Shared = (u32, u32, Point);

/// The stretches of a tile.
#[derive(Default)]
pub struct Stretches {
    /// The tile's segments by their carriers, those of a carrier by their ends.
    ordered: Vec<Carried>,
    /// Each stretch from its least end to its greatest one, and where in `ordered` it begins.
    pub lines: Vec<Segment>,
    begins: Vec<u32>,
    /// Whether all segments of a stretch have its ends.
    whole: Vec<bool>,
    /// The hot pixels of stretches that aren't whole.
    shared: Vec<Shared>,
}

impl Stretches {
    /// The stretches of the segments of these numbers; adds to the marks all inner ends that lie in the tile.
    pub fn read(&mut self, segments: &[Segment], numbers: &[u32], rect: &Rect, marks: &mut Vec<Point>) {
        self.ordered.clear();
        self.ordered.extend(numbers.iter().map(|&number| Carried::new(&segments[number as usize], number)));
        self.ordered.sort_unstable_by(|s, t| s.by_carrier(t).then_with(|| (s.p, s.q).cmp(&(t.p, t.q))));
        self.lines.clear();
        self.begins.clear();
        self.whole.clear();
        self.shared.clear();
        for place in 0..self.ordered.len() {
            if !self.joins(place) {
                self.begins.push(place as u32);
                self.lines.push(segments[self.ordered[place].segment as usize]);
                self.whole.push(true);
            } else if !self.repeats_last(place) {
                self.lengthen(place, rect, marks);
            }
        }
        self.begins.push(self.ordered.len() as u32);
    }

    /// Whether a segment overlaps or touches the last stretch, on its carrier.
    fn joins(&self, place: usize) -> bool {
        let Carried { p, .. } = self.ordered[place];
        self.lines.last().is_some_and(|line| p <= line.last() && self.ordered[place - 1].by_carrier(&self.ordered[place]).is_eq())
    }

    /// Whether a segment has the ends of the last stretch.
    fn repeats_last(&self, place: usize) -> bool {
        let Carried { p, q, .. } = self.ordered[place];
        self.lines.last().is_some_and(|line| (p, q) == (line.first(), line.last()))
    }

    /// Makes the last stretch as long as a segment wants that has other ends.
    fn lengthen(&mut self, place: usize, rect: &Rect, marks: &mut Vec<Point>) {
        let Carried { p, q, .. } = self.ordered[place];
        let (line, whole) = (self.lines.last_mut().unwrap(), self.whole.last_mut().unwrap());
        let last = line.last();
        (line.qx, line.qy) = (q.max(last).x(), q.max(last).y());
        *whole = false;
        marks.extend([p, q, last].into_iter().filter(|end| rect.holds(end.x(), end.y())));
    }

    fn segments_of(&self, stretch: u32) -> &[Carried] {
        &self.ordered[self.begins[stretch as usize] as usize..self.begins[stretch as usize + 1] as usize]
    }

    /// A hot pixel that a stretch meets: at once the records of its segments, where they are as long.
    #[inline(always)]
    pub fn meet(&mut self, stretch: u32, pixel: Point, records: &mut Vec<Record>) {
        let steps = self.lines[stretch as usize].first().steps_to(pixel);
        if self.whole[stretch as usize] {
            records.extend(self.segments_of(stretch).iter().map(|&Carried { segment, .. }| Record { segment, steps, pixel }));
        } else {
            self.shared.push((stretch, steps, pixel));
        }
    }

    /// The records of all other segments: those hot pixels of its stretch that stand between its ends.
    pub fn share(&mut self, records: &mut Vec<Record>) {
        self.shared.sort_unstable();
        for along in self.shared.chunk_by(|one, other| one.0 == other.0) {
            let first = self.lines[along[0].0 as usize].first();
            for &Carried { p, q, segment, .. } in self.segments_of(along[0].0) {
                let (begin, end) = (first.steps_to(p), first.steps_to(q));
                let from = &along[along.partition_point(|&(_, steps, _)| steps < begin)..];
                let between = from.iter().take_while(|&&(_, steps, _)| steps <= end);
                records.extend(between.map(|&(_, steps, pixel)| Record { segment, steps: steps - begin, pixel }));
            }
        }
    }
}
