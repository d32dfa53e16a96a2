//! The tiles over both layers, and for each tile the segments that pass it or come next to it.
use crate::hands::{unfilled, Hands, Places};
use crate::point::Segment;
use std::sync::Mutex;

/// Segments that a tile should have.
const SEGMENTS_PER_TILE: usize = 64;
const MOST_TILES: i64 = 16384;

/// A rectangle of whole points, its borders belonging to it.
#[derive(Clone, Copy)]
pub struct Rect {
    pub left: i32,
    pub bottom: i32,
    pub right: i32,
    pub top: i32,
}

const NOWHERE: Rect = Rect { left: i32::MAX, bottom: i32::MAX, right: i32::MIN, top: i32::MIN };

impl Rect {
    fn with(self, other: Rect) -> Rect {
        Rect {
            left: self.left.min(other.left),
            bottom: self.bottom.min(other.bottom),
            right: self.right.max(other.right),
            top: self.top.max(other.top),
        }
    }

    fn round(segment: &Segment) -> Rect {
        let (bottom, top) = segment.rows();
        Rect { left: segment.px, bottom, right: segment.qx, top }
    }
}

/// Square tiles from the least corner on.
pub struct Grid {
    bounds: Rect,
    width: i64,
    height: i64,
    side: i64,
    columns: i64,
    pub tiles: usize,
}

impl Grid {
    /// The grid by a side, or by one that fits the number and the length of the segments.
    pub fn over(segments: &[Segment], side: Option<i64>, hands: Hands) -> Grid {
        let bounds = hands
            .each(|hand| segments[hands.part(segments.len(), hand)].iter().fold(NOWHERE, |found, segment| found.with(Rect::round(segment))))
            .into_iter()
            .fold(NOWHERE, Rect::with);
        let (width, height) = ((bounds.right - bounds.left) as i64 + 1, (bounds.top - bounds.bottom) as i64 + 1);
        let side = side.unwrap_or_else(|| Grid::fitting(segments, width, height));
        let (columns, rows) = ((width + side - 1) / side, (height + side - 1) / side);
        Grid { bounds, width, height, side, columns, tiles: (columns * rows) as usize }
    }

    fn fitting(segments: &[Segment], width: i64, height: i64) -> i64 {
        let wanted = (segments.len() / SEGMENTS_PER_TILE).clamp(1, MOST_TILES as usize) as f64;
        let even = (width as f64 * height as f64 / wanted).sqrt().ceil() as i64;
        let length = segments.iter().map(|s| s.run().max(s.rise().abs())).sum::<i64>() / segments.len() as i64;
        even.max(16).max((width.max(height) + MOST_TILES - 1) / MOST_TILES).max(length.min(width.max(height)))
    }

    pub fn rect(&self, tile: usize) -> Rect {
        let (column, row) = (tile as i64 % self.columns, tile as i64 / self.columns);
        let (left, bottom) = (self.bounds.left as i64 + column * self.side, self.bounds.bottom as i64 + row * self.side);
        Rect { left: left as i32, bottom: bottom as i32, right: (left + self.side - 1) as i32, top: (bottom + self.side - 1) as i32 }
    }

    /// Tells the tiles that a segment comes within one unit of, column by column.
    #[inline(always)]
    fn visit(&self, segment: &Segment, mut tell: impl FnMut(usize)) {
        let (lx, ly) = ((segment.px - self.bounds.left) as i64, (segment.py - self.bounds.bottom) as i64);
        let (hx, hy) = ((segment.qx - self.bounds.left) as i64, (segment.qy - self.bounds.bottom) as i64);
        let (dx, dy, side) = (hx - lx, hy - ly, self.side);
        let (first, last) = ((lx - 1).max(0) / side, (hx + 1).min(self.width - 1) / side);
        for column in first..=last {
            let (low, high) = if dx == 0 || first == last {
                (ly.min(hy), ly.max(hy))
            } else {
                let enters = (column * side - 1).clamp(lx, hx) - lx;
                let leaves = ((column + 1) * side + 1).clamp(lx, hx) - lx;
                let (lowest, highest) = if dy >= 0 { (enters, leaves) } else { (leaves, enters) };
                (ly + (lowest * dy).div_euclid(dx), ly - (-highest * dy).div_euclid(dx))
            };
            for row in (low - 1).max(0) / side..=(high + 1).min(self.height - 1) / side {
                tell((row * self.columns + column) as usize);
            }
        }
    }
}

/// For each tile the numbers of its segments, ascending, in one list.
pub struct Bins {
    begins: Vec<u32>,
    numbers: Vec<u32>,
}

impl Bins {
    /// Counts first, then puts each number at its place: every hand has a part of the segments.
    pub fn build(grid: &Grid, segments: &[Segment], hands: Hands) -> Bins {
        let part = |hand: usize| hands.part(segments.len(), hand);
        let counts: Vec<Vec<u32>> = hands.each(|hand| {
            let mut counts = vec![0u32; grid.tiles];
            segments[part(hand)].iter().for_each(|segment| grid.visit(segment, |tile| counts[tile] += 1));
            counts
        });
        let mut begins = vec![0u32; grid.tiles + 1];
        let mut places = vec![vec![0u32; grid.tiles]; hands.0];
        let mut sum = 0u32;
        for tile in 0..grid.tiles {
            begins[tile] = sum;
            for hand in 0..hands.0 {
                places[hand][tile] = sum;
                sum += counts[hand][tile];
            }
        }
        begins[grid.tiles] = sum;
        let mut numbers = unfilled(sum as usize);
        let target = Places(numbers.as_mut_ptr());
        let places: Vec<Mutex<Vec<u32>>> = places.into_iter().map(Mutex::new).collect();
        hands.each(|hand| {
            let target = target;
            let mut places = places[hand].lock().unwrap();
            for number in part(hand) {
                grid.visit(&segments[number], |tile| {
                    unsafe { target.put(places[tile] as usize, number as u32) };
                    places[tile] += 1;
                });
            }
        });
        Bins { begins, numbers }
    }

    pub fn of(&self, tile: usize) -> &[u32] {
        &self.numbers[self.begins[tile] as usize..self.begins[tile + 1] as usize]
    }
}
