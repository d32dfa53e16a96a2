//! Next edges, the rings that they make, and which shell owns each.
use crate::edges::Strips;
use crate::hands::Hands;
use crate::labels::{Directed, FEW};
use crate::point::{turn, Point};
use crate::sweep::{Edge, Plane};
use std::cmp::Ordering;
use std::collections::HashMap;
use std::ops::Range;

/// The edge after another one, and how many leave that vertex.
#[derive(Clone, Copy)]
pub struct Next {
    edge: u32,
    leaving: u32,
}

/// For each edge the first one clockwise from it round its end.
pub fn next_edges(directed: &Directed, strips: &Strips, hands: Hands) -> Vec<Next> {
    let next = hands.each(|hand| {
        let (part, mut rounds) = (hands.part(directed.edges.len(), hand), HashMap::new());
        part.map(|number| next_edge(directed, strips, &mut rounds, number)).collect::<Vec<Next>>()
    });
    next.concat()
}

/// The edges that leave a vertex, clockwise, by the first of them.
pub type Rounds = HashMap<usize, Vec<usize>>;

/// How far round `v`, from `u`, clockwise: less than a half turn, a half turn, more, a whole one.
fn quarter(v: Point, u: Point, w: Point) -> u8 {
    match turn(v, u, w) {
        ..0 => 0,
        1.. => 2,
        0 => {
            let run = |p: Point| (p.x() - v.x()) as i64;
            let rise = |p: Point| (p.y() - v.y()) as i64;
            if run(u) * run(w) + rise(u) * rise(w) < 0 {
                1
            } else {
                3
            }
        }
    }
}

/// The order of two points round `v`, clockwise, from straight up.
fn clockwise(v: Point, p: Point, q: Point) -> Ordering {
    (p < v).cmp(&(q < v)).then_with(|| turn(v, p, q).cmp(&0))
}

fn next_edge(directed: &Directed, strips: &Strips, rounds: &mut Rounds, number: usize) -> Next {
    let leaving = directed.leaving(directed.edges[number].1, strips);
    let count = leaving.len() as u32;
    Next { edge: after(&directed.edges, leaving, rounds, directed.edges[number]) as u32, leaving: count }
}

/// Of the edges that leave the end of an edge the first one clockwise from it.
pub fn after(edges: &[(Point, Point)], leaving: Range<usize>, rounds: &mut Rounds, (u, v): (Point, Point)) -> usize {
    match leaving.len() {
        1 => leaving.start,
        ..FEW => nearest(edges, leaving, u, v),
        _ => {
            let round = rounds.entry(leaving.start).or_insert_with(|| round(edges, leaving, v));
            let passed = round.partition_point(|&edge| clockwise(v, edges[edge].1, u).is_le());
            round[passed % round.len()]
        }
    }
}

/// The same, where they are few.
fn nearest(edges: &[(Point, Point)], leaving: Range<usize>, u: Point, v: Point) -> usize {
    let mut best = leaving.start;
    let mut best_quarter = quarter(v, u, edges[best].1);
    for other in leaving.start + 1..leaving.end {
        let w = edges[other].1;
        let found = quarter(v, u, w);
        if found < best_quarter || (found == best_quarter && turn(v, edges[best].1, w) > 0) {
            (best, best_quarter) = (other, found);
        }
    }
    best
}

/// All edges that leave `v`, clockwise.
fn round(edges: &[(Point, Point)], leaving: Range<usize>, v: Point) -> Vec<usize> {
    let mut round: Vec<usize> = leaving.collect();
    round.sort_unstable_by(|&a, &b| clockwise(v, edges[a].1, edges[b].1));
    round
}

/// The rings, each a part of one walk over all edges, from its least edge on.
pub struct Rings {
    walk: Vec<u32>,
    begins: Vec<u32>,
    /// The ring of each edge.
    ring_of: Vec<u32>,
    /// Whether a ring passes a vertex that several edges leave, so that it may have to be cut.
    branching: Vec<bool>,
    hole: Vec<bool>,
}

impl Rings {
    pub fn walk(directed: &Directed, next: &[Next], hands: Hands) -> Rings {
        const NONE: u32 = u32::MAX;
        let count = directed.edges.len();
        let mut rings =
            Rings { walk: Vec::with_capacity(count), begins: Vec::new(), ring_of: vec![NONE; count], branching: Vec::new(), hole: Vec::new() };
        for first in 0..count {
            if rings.ring_of[first] != NONE {
                continue;
            }
            let (ring, mut edge, mut branching) = (rings.begins.len() as u32, first, false);
            rings.begins.push(rings.walk.len() as u32);
            while rings.ring_of[edge] == NONE {
                rings.ring_of[edge] = ring;
                rings.walk.push(edge as u32);
                branching |= next[edge].leaving > 1;
                edge = next[edge].edge as usize;
            }
            rings.branching.push(branching);
        }
        rings.begins.push(count as u32);
        let hole = hands.each(|hand| hands.part(rings.len(), hand).map(|ring| rings.turns_left(directed, ring)).collect::<Vec<bool>>());
        rings.hole = hole.concat();
        rings
    }

    pub fn len(&self) -> usize {
        self.begins.len() - 1
    }

    /// The edges of a ring.
    pub fn of(&self, ring: usize) -> &[u32] {
        &self.walk[self.begins[ring] as usize..self.begins[ring + 1] as usize]
    }

    pub fn is_hole(&self, ring: usize) -> bool {
        self.hole[ring]
    }

    pub fn is_branching(&self, ring: usize) -> bool {
        self.branching[ring]
    }

    /// Whether the ring turns left at its least vertex: then it is a hole.
    fn turns_left(&self, directed: &Directed, ring: usize) -> bool {
        let edges = self.of(ring);
        let least = directed.edges[edges[0] as usize].0;
        let following = edges.iter().skip(1).chain(&edges[..1]);
        edges.iter().zip(following).any(|(&edge, &after)| {
            let ((u, v), (_, w)) = (directed.edges[edge as usize], directed.edges[after as usize]);
            v == least && turn(v, u, w) > 0
        })
    }
}

/// For each ring the shell that owns it: a hole's is that of the ring of the nearest edge below its least vertex.
pub fn owners(directed: &Directed, rings: &Rings, strips: &Strips, hands: Hands) -> Vec<u32> {
    let mut owners: Vec<u32> = (0..rings.len() as u32).collect();
    if !rings.hole.contains(&true) {
        return owners;
    }
    let begun = edges_by_strip(directed, strips, hands);
    let plane = Plane::of(&begun, strips, hands);
    let mut holes: Vec<Vec<(Point, u32)>> = vec![Vec::new(); strips.len()];
    for ring in (0..rings.len()).filter(|&ring| rings.hole[ring]) {
        let least = directed.edges[rings.of(ring)[0] as usize].0;
        holes[strips.of_point(least)].push((least, ring as u32));
    }
    let below = hands.tasks(strips.len(), |number| {
        let (holes, mut next, mut found) = (&holes[number], 0, Vec::new());
        if holes.is_empty() {
            return found;
        }
        let strip = plane.strip(number, holes.iter().map(|hole| hole.0));
        strip.sweep(|vertex, below| {
            while next < holes.len() && holes[next].0 == vertex {
                found.push((holes[next].1, strip.edges[below.unwrap() as usize].number));
                next += 1;
            }
        });
        found
    });
    for (hole, edge) in below.into_iter().flatten() {
        owners[hole as usize] = owners[rings.ring_of[edge as usize] as usize];
    }
    owners
}

/// The directed edges without their direction, but the upright ones, with their numbers.
fn edges_by_strip(directed: &Directed, strips: &Strips, hands: Hands) -> Vec<Vec<Edge>> {
    let parts = hands.each(|hand| {
        let mut found = vec![Vec::new(); strips.len()];
        for number in hands.part(directed.edges.len(), hand) {
            let (u, v) = directed.edges[number];
            let (p, q) = if u < v { (u, v) } else { (v, u) };
            if p.x() != q.x() {
                found[strips.of_point(p)].push(Edge { p, q, layers: 0, number: number as u32 });
            }
        }
        found
    });
    hands.tasks(strips.len(), |strip| {
        let mut edges: Vec<Edge> = parts.iter().flat_map(|found| &found[strip]).copied().collect();
        edges.sort_unstable();
        edges
    })
}
