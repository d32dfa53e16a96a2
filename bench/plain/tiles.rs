//! Hot pixels and records of every tile. The lines are the stretches of the tile's segments; points that are known to be hot are
//! marks, as the ends of segments inside a stretch are.
//!
//! Where most lines run side by side through a rectangle, they are left out as a ribbon: what they cross becomes marks of the rest,
//! and what the rest finds is looked up in the ribbon. Else the rectangle is halved. Where few lines are left all pairs are
//! crossed, and every line is tried on every hot pixel.
use crate::bins::{Bins, Grid, Rect};
use crate::crossing::{are_apart, cross, meets};
use crate::hands::Hands;
use crate::point::{Point, Segment};
use crate::ribbon::{Course, Parted};
use crate::stretches::Stretches;
use std::cmp::Ordering::{Equal, Greater, Less};
use std::ops::Range;
use std::sync::atomic::{AtomicUsize, Ordering::Relaxed};

/// Lines that aren't halved any further.
const FEW: usize = 32;

/// A segment meets a hot pixel: how many steps from its first end, in columns and rows together.
#[derive(Clone, Copy)]
pub struct Record {
    pub segment: u32,
    pub steps: u32,
    pub pixel: Point,
}

/// The records of all tiles, as each hand found them.
pub fn records(grid: &Grid, bins: Bins, segments: &[Segment], hands: Hands) -> Vec<Vec<Record>> {
    let next = AtomicUsize::new(0);
    hands.each(|_| {
        let mut desk = Desk::new(segments, 3 * segments.len() / hands.0);
        loop {
            let tile = next.fetch_add(1, Relaxed);
            if tile >= grid.tiles {
                return desk.records;
            }
            desk.tile(grid.rect(tile), bins.of(tile));
        }
    })
}

impl Rect {
    /// Whether the segment has a point in the square round the rectangle's pixels: exact, by one determinant.
    #[inline(always)]
    fn is_met_by(&self, s: &Segment) -> bool {
        let (low, high) = s.rows();
        if s.qx < self.left || s.px > self.right || high < self.bottom || low > self.top {
            return false;
        }
        let (dx, dy) = (s.run(), s.rise());
        let center_x = (self.left + self.right - 2 * s.px) as i64;
        let center_y = (self.bottom + self.top - 2 * s.py) as i64;
        let away = dx * center_y - dy * center_x;
        away.abs() <= dx * (self.top - self.bottom + 1) as i64 + dy.abs() * (self.right - self.left + 1) as i64
    }

    pub fn holds(&self, x: i32, y: i32) -> bool {
        x >= self.left && x <= self.right && y >= self.bottom && y <= self.top
    }

    fn halves_by_column(self) -> [Rect; 2] {
        let middle = self.left + (self.right - self.left) / 2;
        [Rect { right: middle, ..self }, Rect { left: middle + 1, ..self }]
    }

    fn halves_by_row(self) -> [Rect; 2] {
        let middle = self.bottom + (self.top - self.bottom) / 2;
        [Rect { top: middle, ..self }, Rect { bottom: middle + 1, ..self }]
    }
}

/// What comes into a rectangle: places of two stacks, of lines and of marks.
#[derive(Clone)]
struct Inside {
    lines: Range<usize>,
    marks: Range<usize>,
}

/// The working space of one hand.
struct Desk<'a> {
    segments: &'a [Segment],
    stretches: Stretches,
    /// The numbers of the lines, and the marks, of the rectangles that are being halved, one after the other.
    stack: Vec<u32>,
    marks: Vec<Point>,
    /// The lines of the ribbons that were left out of these rectangles, and the hot pixels that were found without them.
    ribbons: Vec<u32>,
    found: Vec<Point>,
    hot: Vec<Point>,
    parted: Parted,
    records: Vec<Record>,
}

impl<'a> Desk<'a> {
    fn new(segments: &'a [Segment], room: usize) -> Self {
        Desk {
            segments,
            stretches: Stretches::default(),
            stack: Vec::new(),
            marks: Vec::new(),
            ribbons: Vec::new(),
            found: Vec::new(),
            hot: Vec::new(),
            parted: Parted::default(),
            records: Vec::with_capacity(room),
        }
    }

    fn tile(&mut self, rect: Rect, numbers: &[u32]) {
        self.marks.clear();
        self.stretches.read(self.segments, numbers, &rect, &mut self.marks);
        self.marks.sort_unstable();
        self.marks.dedup();
        self.stack.clear();
        self.found.clear();
        self.stack.extend(0..self.stretches.lines.len() as u32);
        let lines = &self.stretches.lines;
        self.stack.sort_unstable_by_key(|&line| lines[line as usize].first());
        self.halve(rect, Inside { lines: 0..self.stack.len(), marks: 0..self.marks.len() });
        self.stretches.share(&mut self.records);
    }

    fn lines(&self, places: Range<usize>) -> impl Iterator<Item = &Segment> + Clone {
        self.stack[places].iter().map(|&line| &self.stretches.lines[line as usize])
    }

    /// Takes a rectangle apart; as deep as the side has binary digits, twice, and the number of lines.
    fn halve(&mut self, rect: Rect, inside: Inside) {
        if inside.lines.len() <= FEW {
            return self.leaf(rect, inside);
        }
        for course in Course::both(&rect) {
            if course.part(&self.stretches.lines, &self.stack[inside.lines.clone()], &mut self.parted) {
                return self.leave_ribbon(rect, inside, course);
            }
        }
        if rect.left == rect.right && rect.bottom == rect.top {
            return self.leaf(rect, inside);
        }
        for half in self.halves(&rect, inside.lines.clone()) {
            let part = self.part(&half, inside.clone());
            let (lines, marks) = (part.lines.start, part.marks.start);
            self.halve(half, part);
            self.stack.truncate(lines);
            self.marks.truncate(marks);
        }
    }

    /// Goes on without the lines that were parted as a ribbon, and then looks up in it what was found.
    fn leave_ribbon(&mut self, rect: Rect, inside: Inside, course: Course) {
        let (ribbon, found) = (self.ribbons.len(), self.found.len());
        self.ribbons.extend(self.parted.ribbon.iter().map(|&(_, number)| number));
        let rest = self.rest(&rect, inside, course, ribbon);
        let (lines, marks) = (rest.lines.start, rest.marks.start);
        if !rest.lines.is_empty() || !rest.marks.is_empty() {
            self.halve(rect, rest);
        }
        for place in found..self.found.len() {
            let pixel = self.found[place];
            for met in course.meeting(&self.stretches.lines, &self.ribbons[ribbon..], pixel) {
                self.stretches.meet(self.ribbons[ribbon + met], pixel, &mut self.records);
            }
        }
        self.stack.truncate(lines);
        self.marks.truncate(marks);
        self.ribbons.truncate(ribbon);
    }

    /// The rest of the lines, put on the stacks with their crossings with the ribbon as marks.
    fn rest(&mut self, rect: &Rect, inside: Inside, course: Course, ribbon: usize) -> Inside {
        let (lines, mut marks) = (self.stack.len(), self.marks[inside.marks].to_vec());
        self.stack.extend_from_slice(&self.parted.rest);
        for line in self.lines(lines..self.stack.len()) {
            course.cross_ribbon(&self.stretches.lines, &self.ribbons[ribbon..], line, |x, y| {
                if rect.holds(x, y) {
                    marks.push(Point::new(x, y));
                }
            });
        }
        marks.sort_unstable();
        marks.dedup();
        let first = self.marks.len();
        self.marks.append(&mut marks);
        Inside { lines: lines..self.stack.len(), marks: first..self.marks.len() }
    }

    /// What comes into a half, put on the stacks.
    fn part(&mut self, half: &Rect, whole: Inside) -> Inside {
        let (lines, marks) = (self.stack.len(), self.marks.len());
        for place in whole.lines {
            let line = self.stack[place];
            if half.is_met_by(&self.stretches.lines[line as usize]) {
                self.stack.push(line);
            }
        }
        for place in whole.marks {
            let mark = self.marks[place];
            if half.holds(mark.x(), mark.y()) {
                self.marks.push(mark);
            }
        }
        Inside { lines: lines..self.stack.len(), marks: marks..self.marks.len() }
    }

    /// The halves into which fewer of some 48 lines go both, of a rectangle of more than one pixel.
    fn halves(&self, rect: &Rect, lines: Range<usize>) -> [Rect; 2] {
        if rect.left == rect.right {
            return rect.halves_by_row();
        } else if rect.bottom == rect.top {
            return rect.halves_by_column();
        }
        let step = (lines.len() / 48).max(1);
        let sent = |halves: &[Rect; 2]| -> u32 {
            self.lines(lines.clone()).step_by(step).map(|line| halves.iter().map(|half| half.is_met_by(line) as u32).sum::<u32>()).sum()
        };
        let (by_column, by_row) = (rect.halves_by_column(), rect.halves_by_row());
        match sent(&by_column).cmp(&sent(&by_row)) {
            Less => by_column,
            Greater => by_row,
            Equal if rect.right - rect.left >= rect.top - rect.bottom => by_column,
            Equal => by_row,
        }
    }

    fn leaf(&mut self, rect: Rect, inside: Inside) {
        self.find_hot(&rect, inside.clone());
        self.hot.sort_unstable();
        self.hot.dedup();
        if !self.ribbons.is_empty() {
            self.found.extend_from_slice(&self.hot);
        }
        for place in inside.lines {
            let number = self.stack[place];
            let line = self.stretches.lines[number as usize];
            for &pixel in &self.hot {
                if meets(&line, pixel.x(), pixel.y()) {
                    self.stretches.meet(number, pixel, &mut self.records);
                }
            }
        }
    }

    /// Marks, ends and crossings in the rectangle; where it is one pixel, one is enough.
    fn find_hot(&mut self, rect: &Rect, inside: Inside) {
        self.hot.clear();
        self.hot.extend_from_slice(&self.marks[inside.marks]);
        let is_pixel = rect.left == rect.right && rect.bottom == rect.top;
        let lines = self.stack[inside.lines].iter().map(|&line| &self.stretches.lines[line as usize]);
        for end in lines.clone().flat_map(|line| [line.first(), line.last()]) {
            if rect.holds(end.x(), end.y()) {
                self.hot.push(end);
            }
        }
        for (number, s) in lines.clone().enumerate() {
            for t in lines.clone().take(number) {
                if is_pixel && !self.hot.is_empty() {
                    return;
                }
                if are_apart(s, t) {
                    continue;
                }
                self.hot.extend(cross(s, t).filter(|&(x, y)| rect.holds(x, y)).map(|(x, y)| Point::new(x, y)));
            }
        }
    }
}
