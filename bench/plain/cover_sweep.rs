//! A sweep over a strip's edges, which tells the sets of features that cover their two sides.
use crate::borders::{Borders, Edge};
use crate::cover::{Set, Sets, EMPTY};
use crate::edges::Strips;
use crate::hands::Hands;
use crate::point::{turn, Point};
use std::cmp::Ordering;

const CHUNK: usize = 128;
pub const NONE: u32 = u32::MAX;

/// The sets on the two sides of a strip's edges; and for the first edge that begins at a vertex where none ends, the edge below.
pub struct Swept {
    pub sets: Sets,
    pub left: Vec<Set>,
    pub right: Vec<Set>,
    pub below: Vec<u32>,
}

/// One edge against another that covers the same column, from low to high.
fn by_height(e: &Edge, f: &Edge) -> Ordering {
    let height = if e.p >= f.p { turn(f.p, f.q, e.p) } else { -turn(e.p, e.q, f.p) };
    let ((run_of_e, rise_of_e), (run_of_f, rise_of_f)) = (e.p.to(e.q), f.p.to(f.q));
    height.cmp(&0).then((run_of_f * rise_of_e).cmp(&(rise_of_f * run_of_e)))
}

/// An edge that stands, and the set below it.
#[derive(Clone, Copy)]
struct Standing {
    edge: u32,
    under: Set,
}

/// The edges that stand, from low to high, in chunks.
struct Status {
    chunks: Vec<Vec<Standing>>,
}

type Place = (usize, usize);

impl Status {
    /// The place of the first edge that isn't below.
    fn locate(&self, is_below: impl Fn(u32) -> bool) -> Place {
        let chunk = self.chunks.partition_point(|chunk| is_below(chunk.last().unwrap().edge));
        let place = self.chunks.get(chunk).map_or(0, |chunk| chunk.partition_point(|standing| is_below(standing.edge)));
        (chunk, place)
    }

    fn at(&self, (chunk, place): Place) -> Option<Standing> {
        self.chunks.get(chunk).map(|chunk| chunk[place])
    }

    fn before(&self, (chunk, place): Place) -> u32 {
        match (chunk, place) {
            (0, 0) => NONE,
            (_, 0) => self.chunks[chunk - 1].last().unwrap().edge,
            _ => self.chunks[chunk][place - 1].edge,
        }
    }

    /// How many edges from a place on end, and the place behind them.
    fn ending(&self, (mut chunk, mut place): Place, ends: impl Fn(u32) -> bool) -> (usize, Place) {
        let mut count = 0;
        while self.at((chunk, place)).is_some_and(|standing| ends(standing.edge)) {
            count += 1;
            place += 1;
            if place == self.chunks[chunk].len() {
                (chunk, place) = (chunk + 1, 0);
            }
        }
        (count, (chunk, place))
    }

    /// Puts edges in the place of so many, up to `end`.
    fn replace(&mut self, (chunk, place): Place, count: usize, end: Place, new: Vec<Standing>) {
        if chunk == self.chunks.len() {
            match self.chunks.last_mut() {
                Some(last) if last.len() < CHUNK => last.extend(new),
                _ if new.is_empty() => {}
                _ => self.chunks.push(new),
            }
        } else if end.0 == chunk || end == (chunk + 1, 0) {
            if new.len() == count {
                self.chunks[chunk][place..place + count].copy_from_slice(&new);
            } else {
                self.chunks[chunk].splice(place..place + count, new);
            }
            self.even_out(chunk);
        } else {
            self.chunks[chunk].truncate(place);
            self.chunks[chunk].extend(new);
            if end.1 > 0 {
                self.chunks[end.0].drain(..end.1);
            }
            self.chunks.drain(chunk + 1..end.0);
            self.even_out(chunk);
        }
    }

    /// Leaves out an empty chunk, and halves a long one.
    fn even_out(&mut self, chunk: usize) {
        let length = self.chunks[chunk].len();
        if length == 0 {
            self.chunks.remove(chunk);
        } else if length > 2 * CHUNK {
            let half = self.chunks[chunk].split_off(length / 2);
            self.chunks.insert(chunk + 1, half);
        }
    }
}

/// For each strip the edges that begin before it and end in it or beyond.
fn carried(borders: &Borders, strips: &Strips, hands: Hands) -> Vec<Vec<u32>> {
    let ends = hands.tasks(strips.len(), |strip| {
        let end = |edge: usize| strips.of_point(borders.edges[edge].q);
        let long = borders.in_strip(strip).map(|edge| (edge as u32, end(edge)));
        long.filter(|&(_, end)| end > strip).collect::<Vec<_>>()
    });
    hands.tasks(strips.len(), |strip| ends[..strip].iter().flatten().filter(|(_, end)| *end >= strip).map(|(edge, _)| *edge).collect())
}

/// The sets of all strips.
pub fn sweep(borders: &Borders, strips: &Strips, hands: Hands) -> Vec<Swept> {
    let carried = carried(borders, strips, hands);
    hands.tasks(strips.len(), |strip| Sweep::over(borders, strip, &carried[strip]).run(&carried[strip], strips.end(strip)))
}

struct Sweep<'a> {
    borders: &'a Borders,
    strip: usize,
    first: usize,
    swept: Swept,
}

impl<'a> Sweep<'a> {
    fn over(borders: &'a Borders, strip: usize, carried: &[u32]) -> Sweep<'a> {
        let count = borders.in_strip(strip).len();
        let swept = Swept { sets: Sets::new(), left: vec![EMPTY; count], right: vec![EMPTY; count], below: vec![NONE; count] };
        debug_assert!(carried.iter().all(|&edge| (edge as usize) < borders.in_strip(strip).start));
        Sweep { borders, strip, first: borders.in_strip(strip).start, swept }
    }

    fn edge(&self, edge: u32) -> &Edge {
        &self.borders.edges[edge as usize]
    }

    fn sort(&self, edges: &mut [u32]) {
        edges.sort_unstable_by(|&e, &f| by_height(self.edge(e), self.edge(f)));
    }

    /// The set below an edge, from that above.
    fn across(&mut self, edge: u32, above: Set) -> Set {
        let change = self.swept.sets.of(self.borders.features(edge as usize, self.strip));
        self.swept.sets.beyond(above, change)
    }

    /// The same of an edge of this strip, whose sides are kept.
    fn pass(&mut self, edge: u32, above: Set) -> Set {
        let below = self.across(edge, above);
        let place = edge as usize - self.first;
        (self.swept.left[place], self.swept.right[place]) = (above, below);
        below
    }

    /// The edges that begin at a vertex, all that stand among them from low to high, below what is above them.
    fn begun(&mut self, v: Point, begin: std::ops::Range<usize>, mut above: Set) -> Vec<Standing> {
        let mut new: Vec<u32> = Vec::with_capacity(begin.len());
        for edge in begin {
            if self.borders.edges[edge].q.x() == v.x() {
                above = self.pass(edge as u32, above); // upright: the steepest one, and it never stands
            } else {
                new.push(edge as u32);
            }
        }
        self.sort(&mut new);
        let mut standing: Vec<Standing> = Vec::with_capacity(new.len());
        for &edge in new.iter().rev() {
            above = self.pass(edge, above);
            standing.push(Standing { edge, under: above });
        }
        standing.reverse();
        standing
    }

    fn status(&mut self, carried: &[u32]) -> Status {
        let mut edges = carried.to_vec();
        self.sort(&mut edges);
        let (mut above, mut standing) = (EMPTY, Vec::with_capacity(edges.len()));
        for &edge in edges.iter().rev() {
            above = self.across(edge, above);
            standing.push(Standing { edge, under: above });
        }
        standing.reverse();
        Status { chunks: standing.chunks(CHUNK).map(<[Standing]>::to_vec).collect() }
    }

    fn vertices(&self, carried: &[u32], end: Point) -> Vec<Point> {
        let own = &self.borders.edges[self.borders.in_strip(self.strip)];
        let mut found: Vec<Point> = own.iter().map(|edge| edge.p).collect();
        found.dedup();
        found.extend(own.iter().map(|edge| edge.q).filter(|&q| q < end));
        found.extend(carried.iter().map(|&edge| self.edge(edge).q).filter(|&q| q < end));
        found.sort_unstable();
        found.dedup();
        found
    }

    fn run(mut self, carried: &[u32], end: Point) -> Swept {
        let mut status = self.status(carried);
        let (mut next, last) = (self.first, self.borders.in_strip(self.strip).end);
        for v in self.vertices(carried, end) {
            let edges = &self.borders.edges;
            let place = status.locate(|edge| turn(edges[edge as usize].p, edges[edge as usize].q, v) > 0);
            let begin = next..next + edges[next..last].iter().take_while(|edge| edge.p == v).count();
            next = begin.end;
            let (count, behind) = status.ending(place, |edge| edges[edge as usize].q == v);
            if count == 0 && !begin.is_empty() {
                self.swept.below[begin.start - self.first] = status.before(place);
            }
            let above = status.at(behind).map_or(EMPTY, |standing| standing.under);
            let new = self.begun(v, begin, above);
            status.replace(place, count, behind, new);
        }
        self.swept
    }
}
