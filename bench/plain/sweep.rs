//! A sweep over one strip: its vertices in order, and the edges that cover the place just right of the last one, from low to high.
use crate::edges::Strips;
use crate::hands::Hands;
use crate::point::{turn, Point};
use std::cmp::Ordering;

/// Edges in a chunk of the status; twice as many are split.
const CHUNK: usize = 128;

/// An edge, the layers that change across it (one bit each), and a number of the caller's.
#[derive(Clone, Copy, PartialEq, Eq, PartialOrd, Ord)]
pub struct Edge {
    pub p: Point,
    pub q: Point,
    pub layers: u8,
    pub number: u32,
}

/// From low to high, where both edges cover a column.
fn by_height(e: &Edge, f: &Edge) -> Ordering {
    let above = if e.p >= f.p { turn(f.p, f.q, e.p) } else { -turn(e.p, e.q, f.p) };
    if above != 0 {
        return above.cmp(&0);
    }
    let run = |edge: &Edge| (edge.q.x() - edge.p.x()) as i64;
    let rise = |edge: &Edge| (edge.q.y() - edge.p.y()) as i64;
    (run(f) * rise(e)).cmp(&(rise(f) * run(e)))
}

/// The edges of one strip: first those that reach its left border, then those that begin in it, ascending.
pub struct Strip {
    pub edges: Vec<Edge>,
    pub reaching: usize,
    vertices: Vec<Point>,
}

/// Each strip's edges, from lists of those that begin in each; an edge may reach over several strips.
pub struct Plane<'a> {
    begun: &'a [Vec<Edge>],
    /// The edges of each strip that end in a later one, with that strip's number.
    leaving: Vec<Vec<(Edge, usize)>>,
    strips: &'a Strips,
}

impl<'a> Plane<'a> {
    pub fn of(begun: &'a [Vec<Edge>], strips: &'a Strips, hands: Hands) -> Self {
        let leaving = hands.tasks(strips.len(), |strip| {
            let ended = begun[strip].iter().map(|edge| (*edge, strips.of_point(edge.q)));
            ended.filter(|&(_, end)| end > strip).collect()
        });
        Plane { begun, leaving, strips }
    }

    /// The strip with its vertices: the ends of its edges, and other points that the sweep has to stop at.
    pub fn strip(&self, strip: usize, stops: impl Iterator<Item = Point>) -> Strip {
        let before = self.leaving[..strip].iter().flatten();
        let mut edges: Vec<Edge> = before.filter(|&&(_, end)| end >= strip).map(|&(edge, _)| edge).collect();
        let reaching = edges.len();
        edges.extend_from_slice(&self.begun[strip]);
        let end = self.strips.end(strip);
        let mut vertices: Vec<Point> = Vec::with_capacity(2 * edges.len());
        for (place, edge) in edges.iter().enumerate() {
            if place >= reaching && (place == reaching || edges[place - 1].p != edge.p) {
                vertices.push(edge.p);
            }
            if edge.q < end {
                vertices.push(edge.q);
            }
        }
        vertices.extend(stops);
        vertices.sort_unstable();
        vertices.dedup();
        Strip { edges, reaching, vertices }
    }
}

/// The layers that hold just above and just below each edge, one bit each.
#[derive(Default)]
pub struct Sides {
    pub above: Vec<u8>,
    pub below: Vec<u8>,
}

impl Strip {
    /// Sweeps the strip: tells the sides of all edges, and `at` each vertex the nearest edge below it, before it is passed.
    pub fn sweep(&self, mut at: impl FnMut(Point, Option<u32>)) -> Sides {
        let edges = &self.edges;
        let mut sides = Sides { above: vec![0; edges.len()], below: vec![0; edges.len()] };
        let mut order: Vec<u32> = (0..self.reaching as u32).collect();
        let by_height = |a: &u32, b: &u32| by_height(&edges[*a as usize], &edges[*b as usize]);
        order.sort_unstable_by(by_height);
        sides.carry(edges, &order, 0);
        let mut status = Status::of(&order);
        let mut next = self.reaching;
        for &vertex in &self.vertices {
            let found = status.locate(|edge| turn(edges[edge as usize].p, edges[edge as usize].q, vertex) > 0);
            at(vertex, status.before(found));
            let from = next;
            while next < edges.len() && edges[next].p == vertex {
                next += 1;
            }
            status.replace(
                found,
                |edge| edges[edge as usize].q == vertex,
                |above| {
                    let mut layers = above.map_or(0, |edge| sides.below[edge as usize]);
                    let (upright, mut begun): (Vec<u32>, Vec<u32>) =
                        (from as u32..next as u32).partition(|&edge| edges[edge as usize].q.x() == vertex.x());
                    for edge in upright {
                        layers = sides.pass(edges, edge, layers);
                    }
                    begun.sort_unstable_by(by_height);
                    sides.carry(edges, &begun, layers);
                    begun
                },
            );
        }
        sides
    }
}

impl Sides {
    /// Gives one edge its sides, from the layers above it; answers those below.
    fn pass(&mut self, edges: &[Edge], edge: u32, layers: u8) -> u8 {
        let edge = edge as usize;
        self.above[edge] = layers;
        self.below[edge] = layers ^ edges[edge].layers;
        self.below[edge]
    }

    /// The same for edges over one another, from low to high.
    fn carry(&mut self, edges: &[Edge], order: &[u32], layers: u8) {
        order.iter().rev().fold(layers, |layers, &edge| self.pass(edges, edge, layers));
    }
}

/// Edges from low to high, in chunks, none of them empty.
struct Status {
    chunks: Vec<Vec<u32>>,
}

/// A chunk, and a place in it.
type Place = (usize, usize);

impl Status {
    fn of(order: &[u32]) -> Status {
        Status { chunks: order.chunks(CHUNK).map(<[u32]>::to_vec).collect() }
    }

    /// The first place whose edge isn't below.
    #[inline(always)]
    fn locate(&self, is_below: impl Fn(u32) -> bool) -> Place {
        let chunk = self.chunks.partition_point(|chunk| is_below(*chunk.last().unwrap()));
        (chunk, self.chunks.get(chunk).map_or(0, |chunk| chunk.partition_point(|&edge| is_below(edge))))
    }

    fn at(&self, (chunk, place): Place) -> Option<u32> {
        self.chunks.get(chunk).map(|chunk| chunk[place])
    }

    fn before(&self, (chunk, place): Place) -> Option<u32> {
        match place {
            0 => chunk.checked_sub(1).and_then(|chunk| self.chunks[chunk].last().copied()),
            _ => Some(self.chunks[chunk][place - 1]),
        }
    }

    /// Takes out edges from a place on while they are gone, and puts others there, made from the edge that then stands above.
    fn replace(&mut self, from: Place, is_gone: impl Fn(u32) -> bool, others: impl FnOnce(Option<u32>) -> Vec<u32>) {
        let (mut to, mut gone) = (from, 0);
        while self.at(to).is_some_and(&is_gone) {
            gone += 1;
            to.1 += 1;
            if to.1 == self.chunks[to.0].len() {
                to = (to.0 + 1, 0);
            }
        }
        let others = others(self.at(to));
        let (chunk, place) = from;
        if chunk == self.chunks.len() {
            self.push(others);
        } else if to.0 == chunk || to == (chunk + 1, 0) {
            self.splice(chunk, place, gone, others);
        } else {
            self.chunks[chunk].truncate(place);
            self.chunks[chunk].extend(others);
            if to.1 > 0 {
                self.chunks[to.0].drain(..to.1);
            }
            self.chunks.drain(chunk + 1..to.0);
            if self.chunks[chunk].is_empty() {
                self.chunks.remove(chunk);
            }
        }
    }

    fn push(&mut self, others: Vec<u32>) {
        match self.chunks.last_mut() {
            _ if others.is_empty() => {}
            Some(last) if last.len() < CHUNK => last.extend(others),
            _ => self.chunks.push(others),
        }
    }

    fn splice(&mut self, chunk: usize, place: usize, gone: usize, others: Vec<u32>) {
        let edges = &mut self.chunks[chunk];
        if others.len() == gone {
            return edges[place..place + gone].copy_from_slice(&others);
        }
        edges.splice(place..place + gone, others);
        if edges.is_empty() {
            self.chunks.remove(chunk);
        } else if edges.len() > 2 * CHUNK {
            let rest = edges.split_off(edges.len() / 2);
            self.chunks.insert(chunk + 1, rest);
        }
    }
}
