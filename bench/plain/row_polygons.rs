//! The polygons of one row's directed edges, in the canonical order.
use crate::point::{turn, Point};
use crate::rings::{after, Rounds};
use std::collections::HashMap;

pub type Directed = (Point, Point);

/// A ring as it is written, without its first point again, and whether a polygon begins with it.
pub struct Piece {
    pub is_shell: bool,
    pub points: Vec<Point>,
}

/// Twice the area of directed edges.
pub fn twice_area(directed: &[Directed]) -> i64 {
    let term = |p: Point, q: Point| p.x() as i64 * q.y() as i64 - p.y() as i64 * q.x() as i64;
    directed.iter().map(|&(p, q)| term(p, q) as i128).sum::<i128>() as i64
}

/// The polygons of directed edges in order: their pieces one after another. `below` tells the edge below a hole's least vertex.
pub fn polygons(directed: &[Directed], below: impl Fn(Point) -> Directed) -> Vec<Piece> {
    let rings = Rings::walk(directed);
    let owners = rings.owners(directed, below);
    let mut pieces: Vec<(u32, Piece)> = Vec::with_capacity(rings.len());
    let mut shells = vec![(Point::LAST, Point::LAST); rings.len()];
    for (ring, &owner) in owners.iter().enumerate() {
        for piece in rings.pieces(directed, ring, owner == ring as u32) {
            if piece.is_shell {
                shells[ring] = (piece.points[0], piece.points[1]);
            }
            pieces.push((owner, piece));
        }
    }
    pieces.sort_by_cached_key(|(owner, piece)| (shells[*owner as usize], !piece.is_shell, piece.points[0], piece.points[1]));
    pieces.into_iter().map(|(_, piece)| piece).collect()
}

/// The rings, each from its least edge on, and which ring an edge is in.
struct Rings {
    edges: Vec<u32>,
    begins: Vec<usize>,
    of_edge: Vec<u32>,
    /// Whether a ring passes a vertex where several edges begin.
    is_tangled: Vec<bool>,
}

impl Rings {
    fn walk(directed: &[Directed]) -> Rings {
        let next = next_edges(directed);
        let none = u32::MAX;
        let mut rings = Rings { edges: Vec::with_capacity(directed.len()), begins: vec![], of_edge: vec![none; directed.len()], is_tangled: vec![] };
        for first in 0..directed.len() {
            if rings.of_edge[first] != none {
                continue;
            }
            let (mut edge, mut is_tangled) = (first, false);
            let number = rings.begins.len() as u32;
            rings.begins.push(rings.edges.len());
            while rings.of_edge[edge] == none {
                rings.of_edge[edge] = number;
                rings.edges.push(edge as u32);
                is_tangled |= next[edge].1;
                edge = next[edge].0 as usize;
            }
            rings.is_tangled.push(is_tangled);
        }
        rings.begins.push(directed.len());
        rings
    }

    fn len(&self) -> usize {
        self.begins.len() - 1
    }

    fn edges(&self, ring: usize) -> &[u32] {
        &self.edges[self.begins[ring]..self.begins[ring + 1]]
    }

    /// The owner of each ring: itself, or that of the ring below a hole, which begins further left.
    fn owners(&self, directed: &[Directed], below: impl Fn(Point) -> Directed) -> Vec<u32> {
        let mut owners: Vec<u32> = Vec::with_capacity(self.len());
        for ring in 0..self.len() {
            owners.push(if self.is_hole(directed, ring) {
                let least = directed[self.edges(ring)[0] as usize].0;
                let under = directed.binary_search(&below(least)).expect("an edge of the row below its hole");
                owners[self.of_edge[under] as usize]
            } else {
                ring as u32
            });
        }
        owners
    }

    fn is_hole(&self, directed: &[Directed], ring: usize) -> bool {
        let edges = self.edges(ring);
        let least = directed[edges[0] as usize].0;
        let corner = |place: usize| (directed[edges[place] as usize], directed[edges[(place + 1) % edges.len()] as usize]);
        (0..edges.len()).map(corner).any(|((u, v), (_, w))| v == least && turn(v, u, w) > 0)
    }

    /// The pieces of a ring, of which one is a polygon's first where it is a shell's.
    fn pieces(&self, directed: &[Directed], ring: usize, is_shell: bool) -> Vec<Piece> {
        let points: Vec<Point> = self.edges(ring).iter().map(|&edge| directed[edge as usize].0).collect();
        if !self.is_tangled[ring] {
            return vec![Piece { is_shell, points }];
        }
        let least = points[0];
        let arriving = self.edges(ring).iter().map(|&edge| directed[edge as usize]).filter(|edge| edge.1 == least);
        let highest = arriving.map(|edge| edge.0).reduce(|best, u| if turn(least, best, u) > 0 { u } else { best });
        let from_least = cut(&points).into_iter().map(|mut points| {
            let place = (0..points.len()).min_by_key(|&place| points[place]).unwrap();
            points.rotate_left(place);
            points
        });
        let is_first = |points: &[Point]| is_shell && points[0] == least && points.last().copied() == highest;
        from_least.map(|points| Piece { is_shell: is_first(&points), points }).collect()
    }
}

/// A ring's pieces, none of which visits a vertex twice.
fn cut(ring: &[Point]) -> Vec<Vec<Point>> {
    let mut places: HashMap<Point, usize> = HashMap::new();
    let (mut left, mut pieces): (Vec<Point>, Vec<Vec<Point>>) = (Vec::new(), Vec::new());
    for &point in ring {
        if let Some(&place) = places.get(&point) {
            let piece = left.split_off(place);
            for point in &piece {
                places.remove(point);
            }
            pieces.push(piece);
        }
        places.insert(point, left.len());
        left.push(point);
    }
    pieces.push(left);
    pieces
}

/// The edge behind each edge, and whether several begin there.
fn next_edges(directed: &[Directed]) -> Vec<(u32, bool)> {
    let mut rounds = Rounds::new();
    let next = |&edge: &Directed| {
        let first = directed.partition_point(|other| other.0 < edge.1);
        let count = directed[first..].partition_point(|other| other.0 == edge.1);
        (after(directed, first..first + count, &mut rounds, edge) as u32, count > 1)
    };
    directed.iter().map(next).collect()
}
